# One house, the root directory, and one entry with a value.
house 1 00000000000a
root 1
clock 1 100
create 1 1 lpr
add 1 1 lpr CDS_Class 5072
read 1 low /.:/lpr CDS_Class
remove 1 1 lpr CDS_Class 5072
read 1 low /.:/lpr CDS_Class
