# ./cdsreplay journal <examples/outage.cds
# Two houses with the root directory. The machine of house 1 loses power twice, each time while house 1 writes down an update.
house 1 00000000000a
house 2 00000000000b
root 1 2
deliver 1
create 1 1 lpr
deliver 2
# The power goes while the record is written: its first half is on the disk. The house comes back with what it had before.
stop 1 1 torn add 1 1 lpr Place 68616c6c
start 1
read 1 low /.:/lpr Place
# The power goes when the last sync was asked for, and all came to the disk. The update was done, though nobody was told, and its
# message for house 2 is lost.
stop 1 4 keep add 1 1 lpr Place 68616c6c
start 1
read 1 low /.:/lpr Place
read 2 low /.:/lpr Place
image 1
# A skulk brings it to house 2. Its power goes too, before it has written down what the skulk brought; so that is delivered again.
skulk 1 1
deliver 4
deliver 5
stop 2 2 drop deliver 6
start 2
read 2 low /.:/lpr Place
deliver 6
read 2 low /.:/lpr Place
deliver 7
