story a request comes in pieces
connect local -> 0
piece 0 get - -> say - stay
piece 0 get 00 -> say - stay
piece 0 get 016e -> say NONE_LISTED close

story a second request is dropped
connect local -> 0
piece 0 get 00016e00016e -> say NONE_LISTED close
piece 0 get NAMES -> say - close

story a length of 0 is closed
connect local -> 0
piece 0 get 00 -> say - stay
piece 0 get 00 -> say - close

story a length of 8193 is closed
connect local -> 0
piece 0 get 2001 -> say - close

story a byte behind NAMES is closed
connect local -> 0
piece 0 get 00026e00 -> say - close

story the largest length is awaited to its last byte
connect local -> 0
piece 0 get 2000 -> say - stay
piece 0 get 6e*8191 -> say - stay
is 0 -> Waiting
piece 0 get 6e -> say - close
is 0 -> Done

story a connection that is late or fails is let go
connect local -> 0
piece 0 get ALIVE_A -> say FOURTH stay
piece 0 get NAMES -> say - stay
late 0 -> stay
connect local -> 1
piece 1 get 0001 -> say - stay
late 1 -> close
is 0 -> Holding
is 1 -> Done
late 1 -> close
fault 0 -> gone
connect local -> 0
piece 0 get DUMP -> say A_RETIRED close
piece 7 get NAMES -> NoSlot
close 7 -> NoSlot
fault 7 -> NoSlot
late 7 -> NoSlot

story one connection may open
with strict conn 1 known 4096 first 4
connect local -> 0
connect local -> Full
close 0 -> gone
connect local -> 0

story a name moves from one connection to another
with strict conn 2 known 4096 first 4
connect local -> 0
connect local -> 1
piece 1 get ALIVE_A -> say FOURTH stay
piece 0 get ALIVE_A -> say TAKEN close
fault 1 -> gone
connect local -> 1
piece 1 get ALIVE_A -> say FIFTH stay
close 5 -> NoSlot
open -> 2
is 0 -> Done
is 1 -> Holding

story the port mapper ends while a connection waits
with strict conn 1 known 4096 first 4
connect local -> 0
connect local -> Full
late 3 -> NoSlot
piece 0 get KILL -> say "OK" halt
connect local -> Halted
late 3 -> Halted

story limits are checked in order
with strict conn 0 known 0 first 4 -> ZeroConnections
with strict conn 65536 known 0 first 4 -> TooManyConnections
with strict conn 1 known 0 first 4 -> ZeroNames
with strict conn 1 known 65536 first 4 -> TooManyNames
with strict conn 65535 known 65535 first 4

story loopback addresses and ones own are local
local 7f090909 0a000001 -> yes
local 0a000001 0a000001 -> yes
local 0a000001 0a000002 -> no
local 00000000000000000000ffff7f000001 0a000001 -> yes
local 00000000000000000000000000000001 0a000001 -> yes
local 00000000000000000000ffff0a000001 0a000001 -> yes
local 00000000000000000000ffff0a000001 0a000002 -> no

let ALIVE_A_BUT_A_BYTE 000e 78 1388 4d 00 0006 0005 0001 "a" 00

story a piece that is a whole registration asks for its name
asks ALIVE_A -> "a"
asks ALIVE_B -> "b"
asks ALIVE_A+6e -> "a"
asks ALIVE_A_BUT_A_BYTE -> -
# It claims a byte more of extra fields than it has.
asks ALIVE_SHORT -> -
asks PORT_A -> -
asks STOP_A -> -
asks NAMES -> -
asks DUMP -> -
asks 000078 -> -
asks - -> -

story a name is active while its connection is open
with strict conn 4 known 4 first 4
connect local -> 0
active "a" -> no
active "b" -> no
piece 0 get ALIVE_A -> say FOURTH stay
active "a" -> yes
active "b" -> no
close 0 -> gone
active "a" -> no
active "b" -> no
