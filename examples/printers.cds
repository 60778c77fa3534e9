# A print service as its users have it. The cell has two hosts, each with a house: house 1 keeps the names of the cell, and house 2
# those of the printers.
house 1 00000000000a
house 2 00000000000b
root 1
mkdir 1 1 printers 2
# A print server runs on each host. The one in the hall offers version 1.2 of the print interface over TCP and UDP. Its two printers
# are its objects.
export /.:/printers/hall 9c2d6a10-5f0b-11d0-8c3e-08002b3cc5e1:1.2 ncacn_ip_tcp:10.0.0.1[1025],ncadg_ip_udp:10.0.0.1[1026] -
export /.:/printers/hall 9c2d6a10-5f0b-11d0-8c3e-08002b3cc5e1:1.2 - 00000000-0000-0000-0000-0000000000b2,00000000-0000-0000-0000-0000000000b1
# The server in the attic is older, and offers version 1.0 over TCP, for one printer.
export /.:/printers/attic 9c2d6a10-5f0b-11d0-8c3e-08002b3cc5e1:1.0 ncacn_ip_tcp:10.0.0.2[1025] 00000000-0000-0000-0000-0000000000b3
# The server in the hall is known by an older name too, which is an alias. Both servers are a group.
link 1 1 lpr /.:/printers/hall
groupadd /.:/printers/all /.:/lpr
groupadd /.:/printers/all /.:/printers/attic
# The cell's profile leads whoever wants to print to the group. Ann's own profile leads her to the attic first, and to the cell's
# profile for all else.
profadd /.:/cell-profile 9c2d6a10-5f0b-11d0-8c3e-08002b3cc5e1:1.2 /.:/printers/all 3 -
profadd /.:/ann 9c2d6a10-5f0b-11d0-8c3e-08002b3cc5e1:1.2 /.:/printers/attic 0 upstairs
profadd /.:/ann default /.:/cell-profile 8 -
# Where can she print? Each server is searched once, the one in the attic first.
import 1 low /.:/ann 9c2d6a10-5f0b-11d0-8c3e-08002b3cc5e1:1.0 - ncacn_ip_tcp,ncadg_ip_udp
# Where is printer b1, over TCP?
import 1 low /.:/ann 9c2d6a10-5f0b-11d0-8c3e-08002b3cc5e1:1.0 00000000-0000-0000-0000-0000000000b1 ncacn_ip_tcp
# Who needs version 1.2 has no use for the server in the attic.
import 1 low /.:/ann 9c2d6a10-5f0b-11d0-8c3e-08002b3cc5e1:1.2 - ncacn_ip_tcp,ncadg_ip_udp
# The server in the attic stops, and takes its address away. Its name stays in the group and in Ann's profile, and nothing is found
# there any more.
unexport /.:/printers/attic 9c2d6a10-5f0b-11d0-8c3e-08002b3cc5e1:1.0 -
import 1 low /.:/ann 9c2d6a10-5f0b-11d0-8c3e-08002b3cc5e1:1.0 - ncacn_ip_tcp,ncadg_ip_udp
