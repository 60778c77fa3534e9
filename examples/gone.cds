# Three houses with the root directory. House 3 is gone for good.
house 1 00000000000a
house 2 00000000000b
house 3 00000000000c
root 1 2 3
deliver 1
deliver 2
create 1 1 lpr
crash 3
epoch 1 1 2
deliver 5
skulk 1 1
deliver 7
deliver 8
deliver 9
deliver 10
read 2 low /.:/lpr CDS_Class
