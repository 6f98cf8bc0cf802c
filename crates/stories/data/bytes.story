# Requests and replies, byte for byte as the protocol spells them, for all stories. A request stands behind its length in two bytes.
# The port mapper has port 4369, which is 1111.

# ALIVE2_REQ: port 5000 (1388), a normal node (4d), protocol 0, versions 6 to 5, the name behind its length, no extra bytes.
let ALIVE_A 000e 78 1388 4d 00 0006 0005 0001 "a" 0000
let ALIVE_B 000e 78 1388 4d 00 0006 0005 0001 "b" 0000
let ALIVE_C 000e 78 1388 4d 00 0006 0005 0001 "c" 0000

# The same of a node that speaks version 5 alone.
let ALIVE_V 000e 78 1388 4d 00 0005 0005 0001 "v" 0000

# A registration whose last byte tells of an extra byte that is not there.
let ALIVE_SHORT 000e 78 1388 4d 00 0006 0005 0001 "a" 0001

let PORT_A 0002 7a "a"
let PORT_B 0002 7a "b"
let NAMES 0001 6e
let DUMP 0001 64
let KILL 0001 6b
let STOP_A 0002 73 "a"

# PORT2_RESP with the fields of ALIVE_A, and where no such name is active.
let FOUND_A 77 00 1388 4d 00 0006 0005 0001 "a" 0000
let NOT_FOUND 77 01
# The name is none.
let FOUND_STRANGE 77 00 1388 4d 00 0006 0005 0001 1f 0000

# ALIVE2_X_RESP: a creation of four bytes is given; the name is active; too many names are active.
let FOURTH 76 00 00000004
let FIFTH 76 00 00000005
let SIXTH 76 00 00000006
let SEVENTH 76 00 00000007
let TAKEN 76 01 00000000
let NO_ROOM 76 02 00000000

# ALIVE2_RESP: a creation of two bytes.
let FIRST_SHORT 79 00 0001
let SECOND_SHORT 79 00 0002
let THIRD_SHORT 79 00 0003

# The answers to NAMES_REQ and DUMP_REQ: the port, and a line for each name.
let NONE_LISTED 00001111
let A_LISTED 00001111 "name a at port 5000" 0a
let A_ACTIVE 00001111 "active name     a at port 5000, fd = 0" 0a
let A_RETIRED 00001111 "old/unused name a at port 5000, fd = -1" 0a
