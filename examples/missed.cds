# Three houses with the root directory. House 3 is down while an entry is made and gets a value.
house 1 00000000000a
house 2 00000000000b
house 3 00000000000c
root 1 2 3
deliver 1
deliver 2
crash 3
clock 1 100
create 1 1 lpr
deliver 3
deliver 4
add 1 1 lpr CDS_Class 5072
deliver 5
# The sender gives the messages for house 3 up, and house 3 comes back.
lose 4
lose 6
start 3
# Who shows the value, and what does each house hold?
read 1 low /.:/lpr CDS_Class
read 2 low /.:/lpr CDS_Class
read 3 low /.:/lpr CDS_Class
dump 2 1
dump 3 1
# A skulk brings it.
skulk 1 1
deliver 7
deliver 8
deliver 9
deliver 10
deliver 11
deliver 12
deliver 13
deliver 14
read 3 low /.:/lpr CDS_Class
