session nothing is left of nothing and all of what is local
left -> "run of 0 entries"0a
entry connect 0 local
entry piece 0 get ALIVE_A say FOURTH stay
entry connect 1 local
entry piece 1 get PORT_A say FOUND_A close
left -> LOOK_UP_LINES

# A node registers a, a remote peer looks it up and leaves, and a local one looks it up in the slot that is free again.
session a look-up of another host leaves no trace
entry connect 0 local
entry piece 0 get ALIVE_A say FOURTH stay
entry connect 1 remote
entry piece 1 get PORT_A say FOUND_A close
entry close 1
entry connect 1 local
entry piece 1 get PORT_A say FOUND_A close
left -> LOOK_UP_LINES
recorded
leave steady steady 100 -> Run SESSION

session a slot that is opened again is that of who opens it
entry connect 0 remote
entry piece 0 get NAMES say NONE_LISTED close
entry connect 1 local
entry close 0
entry connect 0 local
entry close 0
left -> "0 connect 1 local"0a"1 connect 0 local"0a"2 close 0"0a"run of 3 entries"0a

session a slot is a local peer's and a remote one's in turn
entry connect 3 local
entry fault 3
entry connect 3 remote
entry fault 3
entry connect 3 local
entry late 3 close
entry connect 3 remote
left -> "0 connect 3 local"0a"1 fault 3"0a"2 connect 3 local"0a"3 late 3 close"0a"run of 4 entries"0a

session an entry stays whose slot was not opened
entry close 7
entry connect 8 remote
entry fault 7
entry piece 7 get - say - stay
entry late 7 halt
entry connect 7 remote
entry late 7 halt
left -> "0 close 7"0a"1 fault 7"0a"2 piece 7 get - say - stay"0a"3 late 7 halt"0a"run of 4 entries"0a

session every kind of entry of a remote peer is left out
entry connect 18446744073709551615 remote
entry connect 0 remote
entry piece 18446744073709551615 get DUMP say - close
entry late 18446744073709551615 close
entry close 18446744073709551615
entry late 0 close
entry fault 0
left -> "run of 0 entries"0a

let LARGEST_LEFT "0 connect 18446744073709551615 local" 0a "1 piece 18446744073709551615 get 000164 say 00001111 close" 0a

session no kind of entry of a local peer is left out
entry connect 0 remote
entry connect 18446744073709551615 local
entry piece 18446744073709551615 get DUMP say NONE_LISTED close
entry close 18446744073709551615
left -> LARGEST_LEFT+"2 close 18446744073709551615"0a"run of 3 entries"0a

session a run is written without its remote peers
bytes SESSION
leave steady steady 3 -> Run SESSION
bytes REMOTE_NAMES
leave steady steady 3 -> Run HEADER
# 58 pulls and one that finds the end, and 16 puts.
leave single single 75 -> Run HEADER
leave single single 74 -> TooManyTurns { sent: 15 } "EPMS"0100111100000002000000
leave steady steady 1 -> TooManyTurns { sent: 0 } -
leave steady single:4 100 -> WriteFault { sent: 4 } "EPMS"
leave steady:1 steady 3 -> ReadFault -
# A name of an unknown slot is no run, whoever it is of.
bytes HEADER+01000000000000000000+030000000000000001
leave steady steady 2 -> Broken(1) -

session two dozen entries are left without their remote peers
bytes HEADER+SIX*2
check -> Run
local -> HEADER+THREE*2

let RELAXED "EPMS" 01 01 1111 00000002 00000002
let RELAXED_2 "EPMS" 02 01 1111 00000002 00000002

session a relaxed session is left without its remote peers
bytes RELAXED+SIX*2
check -> Run
local -> RELAXED+THREE*2
leave steady steady 3 -> Run RELAXED+THREE*2
bytes RELAXED_2+MIXED[16..]
check -> Run
local -> RELAXED_2+LOCAL_LEFT[16..]

let HEADER_OF_MANY "EPMS" 01 00 1111 00000065 00000001
let LOCAL_COMES 01 01 0000000000000064
let LOCAL_LEAVES 03 0000000000000064

session a hundred remote peers at once leave no trace
let REMOTES_COME 00*0
times 0 99 more REMOTES_COME 01 00 00000000%
let REMOTES_LEAVE 00*0
times 0 99 more REMOTES_LEAVE 03 00000000%
bytes HEADER_OF_MANY+REMOTES_COME+LOCAL_COMES+REMOTES_LEAVE+LOCAL_LEAVES
check -> Run
local -> HEADER_OF_MANY+LOCAL_COMES+LOCAL_LEAVES
leave steady steady 3 -> Run HEADER_OF_MANY+LOCAL_COMES+LOCAL_LEAVES
