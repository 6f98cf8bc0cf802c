# The request for the list of names where no name is known, byte by byte: 3 pulls and 4 puts.
call one connection makes no more turns than it has
once NAMES single single 7 -> Close NONE_LISTED
once NAMES large large 2 -> Close NONE_LISTED
once NAMES large single 1 -> TooManyTurns { sent: 0 } -
once NAMES single single 0 -> TooManyTurns { sent: 0 } -
once - single single 0 -> TooManyTurns { sent: 0 } -
once NAMES never single 1000 -> TooManyTurns { sent: 0 } -
pulls NAMES never single 1000 -> 1000

call one connection starts creations where it is told
once ALIVE_A large large 2 -> Stay SEVENTH

# After one Later it ends in silence at the pull behind what was sent.
call one connection ends where its input says so
once - late-single single 2 -> Close -
pulls - late-single single 2 -> 2
once 00 late-single single 3 -> Close -
pulls 00 late-single single 3 -> 3
once 0001 late-single single 4 -> Close -
pulls 0001 late-single single 4 -> 4

# In each case the last turn decides.
call one connection tells why it gave up and how much was written
once NAMES single:0 single 1 -> ReadFault -
once NAMES single:1 single 2 -> ReadFault -
once NAMES single:2 single 3 -> ReadFault -
once NAMES single single:0 4 -> WriteFault { sent: 0 } -
once NAMES single single:1 5 -> WriteFault { sent: 1 } 00
once NAMES single single:2 6 -> WriteFault { sent: 2 } 0000
once NAMES single single:3 7 -> WriteFault { sent: 3 } 000011
once NAMES single single 3 -> TooManyTurns { sent: 0 } -
once NAMES single single 4 -> TooManyTurns { sent: 1 } 00
once NAMES single single 5 -> TooManyTurns { sent: 2 } 0000
once NAMES single single 6 -> TooManyTurns { sent: 3 } 000011

# A look-up of a name that nobody has, byte by byte: 4 pulls and 2 puts.
call one connection tells at which call it failed
once PORT_B single single 6 -> Close NOT_FOUND
times 0 3 once PORT_B single:$ single 6 -> ReadFault -
once PORT_B single single:0 6 -> WriteFault { sent: 0 } -
once PORT_B single single:1 6 -> WriteFault { sent: 1 } 77
once PORT_A single single:1 100 -> WriteFault { sent: 1 } 77

call one connection asks again after a later
once NAMES slow-single slow-single 11 -> Close NONE_LISTED

# Two bytes at most at a put, one of which says Later: three puts are too few, and one more is enough.
call a reply is told in as many puts as it may take
to pairs-later-at-1
tell "12345" 3 -> TooManyTurns { sent: 4 }
tell "5" 1 -> ()
written -> "12345"

call a flush goes on where the last one stopped
to pairs
push "123"
push "45"
flush -> Empty left -
flush -> Empty left -
written -> "12345"
to pairs-later-at-1
push "123"
push "45"
flush -> Later left "345"
flush -> Empty left -
written -> "12345"
to pairs:1
push "123"
push "45"
flush -> Fault left "345"
flush -> Fault left "345"
written -> "12" failed

call bytes go out in the order of their pushes
to pairs-later-in-turn
push "abc"
flush -> Later left "c"
push "def"
flush -> Later left "ef"
push "ghi"
flush -> Later left "ghi"
flush -> Empty left -
send "!" -> 1 Empty
written -> "abcdefghi!"

call ten thousand bytes go out in order
to late-large
push 00010203040506*714
flush -> Later left 00010203040506*714
push 0708090a0b0c0d*714
flush -> Empty left -
written -> 00010203040506*714+0708090a0b0c0d*714
