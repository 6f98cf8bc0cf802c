story a name is registered and looked up
connect local -> 0
piece 0 get ALIVE_A -> say FOURTH stay
connect local -> 1
piece 1 get PORT_A -> say FOUND_A close
connect local -> 2
piece 2 get PORT_B -> say NOT_FOUND close
connect local -> 3
piece 3 get ALIVE_A -> say TAKEN close
connect local -> 4
piece 4 get PORT_A -> say FOUND_A close
connect local -> 5
piece 5 get 00 -> say - stay
piece 5 get 02 -> say - stay
piece 5 get - -> say - stay
piece 5 get 7a -> say - stay
piece 5 get 61 -> say FOUND_A close
is 0 -> Holding
is 3 -> Done
is 6 -> -
open -> 6
halted -> no

story short creations come in turn
connect local -> 0
piece 0 get ALIVE_V -> say FIRST_SHORT stay
close 0 -> gone
connect local -> 0
piece 0 get ALIVE_V -> say SECOND_SHORT stay
close 0 -> gone
connect local -> 0
piece 0 get ALIVE_V -> say THIRD_SHORT stay
close 0 -> gone
connect local -> 0
piece 0 get ALIVE_V -> say FIRST_SHORT stay

story wide creations go round
with strict conn 1024 known 4096 first 4294967295
connect local -> 0
piece 0 get ALIVE_A -> say 7600ffffffff stay
connect local -> 1
piece 1 get ALIVE_B -> say FOURTH stay

story wide creations begin at 4
with strict conn 1024 known 4096 first 0
connect local -> 0
piece 0 get ALIVE_A -> say FOURTH stay

story names are listed and outlive their connections
connect local -> 0
piece 0 get ALIVE_A -> say FOURTH stay
connect local -> 1
piece 1 get NAMES -> say A_LISTED close
close 1 -> gone
connect local -> 1
piece 1 get DUMP -> say A_ACTIVE close
close 1 -> gone
close 0 -> gone
connect local -> 0
piece 0 get DUMP -> say A_RETIRED close
connect local -> 1
piece 1 get NAMES -> say NONE_LISTED close

story a malformed request is closed unanswered
connect local -> 0
piece 0 get ALIVE_SHORT -> say - close
connect local -> 1
piece 1 get NAMES -> say NONE_LISTED close
connect local -> 2
piece 2 get 00017a -> say - close

story no more names are active than may be known
with strict conn 1024 known 1 first 4
connect local -> 0
piece 0 get ALIVE_A -> say FOURTH stay
close 0 -> gone
connect local -> 0
piece 0 get ALIVE_B -> say FIFTH stay
connect local -> 1
piece 1 get ALIVE_A -> say NO_ROOM close

let C_ACTIVE_B_RETIRED 00001111 "active name     c at port 5000, fd = 0" 0a "old/unused name b at port 5000, fd = -1" 0a

story the name retired longest is forgotten
with strict conn 1024 known 2 first 4
connect local -> 0
piece 0 get ALIVE_A -> say FOURTH stay
close 0 -> gone
connect local -> 0
piece 0 get ALIVE_B -> say FIFTH stay
close 0 -> gone
connect local -> 0
piece 0 get ALIVE_C -> say SIXTH stay
connect local -> 1
piece 1 get DUMP -> say C_ACTIVE_B_RETIRED close
close 1 -> gone
connect local -> 1
piece 1 get ALIVE_A -> say SEVENTH stay
connect local -> 2
piece 2 get ALIVE_B -> say NO_ROOM close

story a forgotten name has no creation
with strict conn 1024 known 1 first 4
connect local -> 0
piece 0 get ALIVE_V -> say FIRST_SHORT stay
close 0 -> gone
connect local -> 0
piece 0 get ALIVE_A -> say FOURTH stay
close 0 -> gone
connect local -> 0
piece 0 get ALIVE_V -> say FIRST_SHORT stay
