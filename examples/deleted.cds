# An entry is made, gets a value, and is deleted. Only the deletion reaches house 2.
house 1 00000000000a
house 2 00000000000b
root 1 2
deliver 1
create 1 1 lpr
add 1 1 lpr CDS_Class 5072
delete 1 1 lpr
deliver 4
read 2 low /.:/lpr CDS_Class
# A skulk makes sure that each member has it.
skulk 1 1
deliver 5
deliver 6
deliver 7
deliver 8
deliver 9
# The older updates come late, and don't bring the entry back. A new one of its name has nothing of it.
deliver 2
deliver 3
read 2 low /.:/lpr CDS_Class
create 1 1 lpr
deliver 10
read 2 low /.:/lpr CDS_Class
