house 1 00000000000a
house 2 00000000000b
house 3 00000000000c
root 1 2 s3
clock 1 64800
create 1 1 lpr
put 1 1 lpr Place 68616c6c
put 1 1 lpr Place 6174746963
clock 1 64860
skulk 1 1
deliver 1
deliver 3
deliver 5
deliver 7
deliver 9
deliver 2
deliver 4
deliver 6
deliver 10
create 3 1 scan
crash 3
start 3
deliver 11
deliver 12
deliver 13
deliver 13
deliver 14
deliver 14
deliver 15
deliver 16
deliver 17
deliver 18
deliver 19
deliver 20
