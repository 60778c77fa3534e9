# Two houses that both accept updates: house 2, with an `s` in front, is a secondary member of the root directory.
house 1 00000000000a
house 2 00000000000b
root 1 s2
deliver 1
# The master makes a printer, and the secondary house learns of it.
create 1 1 laser
deliver 2
# Both say where it is. Neither hears of what the other said.
add 1 1 laser Place 66726f6e74
lose 3
add 2 1 laser Place 6261636b
lose 4
# So each answers what it accepted itself.
read 1 low /.:/laser Place
read 2 low /.:/laser Place
# The secondary house never skulks.
skulk 2 1
# The master does: the answer of the secondary house brings its update, and the second round takes both everywhere.
skulk 1 1
deliver 5
deliver 6
deliver 7
deliver 8
# Now they agree, and each goes on to accept updates.
read 1 low /.:/laser Place
read 2 low /.:/laser Place
dump 2 1
add 2 1 laser Floor 32
deliver 10
read 1 high /.:/laser Floor
