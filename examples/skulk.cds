# Three houses with the root directory. An update reaches one member, and is lost on the way to the other.
house 1 00000000000a
house 2 00000000000b
house 3 00000000000c
root 1 2 3
deliver 1
deliver 2
create 1 1 lpr
deliver 3
lose 4
read 2 low /.:/lpr CDS_Class
read 3 low /.:/lpr CDS_Class
# A skulk begins, and its master crashes before the answers come: the skulk is forgotten.
skulk 1 1
deliver 5
deliver 6
crash 1
deliver 7
start 1
deliver 7
# The next one goes through both rounds. Now house 3 has the entry too.
skulk 1 1
deliver 9
deliver 10
deliver 11
deliver 12
deliver 13
deliver 14
deliver 15
deliver 16
read 3 low /.:/lpr CDS_Class
dump 3 1
