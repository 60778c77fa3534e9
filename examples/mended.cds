# Three houses with the root directory. The Join for one of them is lost, and so is an update for both; and the master crashes in a skulk.
house 1 00000000000a
house 2 00000000000b
house 3 00000000000c
root 1 2 3
deliver 1
lose 2
create 1 1 lpr
lose 3
lose 4
skulk 1 1
deliver 5
deliver 6
crash 1
deliver 7
# Whatever is still on its way does not help. A start of what is down, an epoch with the same houses, and a skulk do.
start 1
deliver 7
epoch 1 1 2 3
deliver 8
deliver 9
skulk 1 1
deliver 10
deliver 11
deliver 12
deliver 13
deliver 14
deliver 15
deliver 16
deliver 17
read 2 low /.:/lpr CDS_Class
read 3 low /.:/lpr CDS_Class
