# An entry is deleted at house 1, and the deletion is lost on its way to house 2. A skulk brings it.
house 1 00000000000a
house 2 00000000000b
root 1 2
deliver 1
create 1 1 lpr
deliver 2
delete 1 1 lpr
lose 3
read 2 low /.:/lpr CDS_Class
skulk 1 1
deliver 4
deliver 5
deliver 6
deliver 7
# The old update comes once more, and does not bring the entry back: house 2 keeps the deletion.
deliver 2
read 2 low /.:/lpr CDS_Class
dump 2 1
