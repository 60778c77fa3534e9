# Two houses, a directory below the root at the second one, and links into it.
house 1 00000000000a
house 2 00000000000b
root 1
clock 1 100
clock 2 200
mkdir 1 1 print 2
create 2 2 lpr
add 2 2 lpr CDS_Class 5072
link 1 1 office /.:/print
link 1 1 printer /.:/office/lpr
read 1 low /.:/print/lpr CDS_Class
read 2 high /.:/office/lpr CDS_Class
read 1 low /.:/printer CDS_Class
readlink 1 low /.:/printer
read 1 low /.:/print CDS_Replicas
read 1 low /.:/printer/tray CDS_Class
