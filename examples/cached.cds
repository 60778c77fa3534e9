# ./cdsreplay clerk 8 <examples/cached.cds
# A client on Ann's machine, whose clerk keeps answers. Its house is house 2, which has a read-only replica.
house 1 00000000000a
house 2 00000000000b
root 1 2
deliver 1
create 1 1 lpr
deliver 2
add 1 1 lpr Place 68616c6c
deliver 3
read 2 low /.:/lpr Place
# The printer moves, and house 2 hears of it. The client goes on with the answer that its clerk has. At high confidence it asks
# past the clerk.
put 1 1 lpr Place 6174746963
deliver 4
read 2 low /.:/lpr Place
read 2 high /.:/lpr Place
# The kept answer outlives the crash of both houses.
crash 1
crash 2
read 2 low /.:/lpr Place
read 2 high /.:/lpr Place
