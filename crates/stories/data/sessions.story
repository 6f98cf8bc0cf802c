session a session is read and written back
bytes SESSION
read -> 4
begins -> 4369 no 2 2

session a session that is cut is faulted at its last entry
bytes SESSION
times 0 15 cut $ -> Truncated(0)
cut 16 -> 0
times 17 25 cut $ -> Truncated(16)
cut 26 -> 1
times 27 63 cut $ -> Truncated(26)
cut 64 -> 2
times 65 73 cut $ -> Truncated(64)
cut 74 -> 3
times 75 108 cut $ -> Truncated(74)
cut 109 -> 4

session bytes that are not even a header are no record
bytes 4551
read -> BadMagic
bytes 50
read -> BadMagic
bytes "EPM"
read -> Truncated(0)
bytes "EPMS"07
read -> BadVersion(7)
bytes "EPMS"0109
read -> Truncated(0)
bytes "EPMS"02
read -> Truncated(0)

session a session that is cut has whole entries up to its last whole one
bytes ENTRY_0+ENTRY_1+ENTRY_2+ENTRY_3
times 0 9 whole plain $ -> 0
times 10 47 whole plain $ -> 10
times 48 57 whole plain $ -> 48
times 58 92 whole plain $ -> 58
whole plain 93 -> 93
bytes 06
whole plain 1 -> 0

session a changed byte is faulted where it is in no table
bytes SESSION
at 0 - -> 4
at 0 44 -> BadMagic
at 3 5402 -> BadMagic
# In version 2 the bytes behind the header are a state, which has names here, and that is not whole.
at 4 02 -> Truncated(0)
at 4 03 -> BadVersion(3)
at 4 0002 -> BadVersion(0)
at 5 01 -> 4
at 5 02 -> BadConfig
at 8 00000000 -> BadConfig
at 8 00010000 -> BadConfig
at 8 0000ffff -> 4
at 12 00000000 -> BadConfig
at 12 0001000006 -> BadConfig
at 12 0000ffff -> 4
at 16 00 -> BadEntry(16)
at 16 06 -> BadEntry(16)
at 17 02 -> BadEntry(16)
at 53 03 -> BadEntry(26)
at 89 ff -> BadEntry(74)
at 90 ffffffff -> Truncated(74)

session each kind of entry is read and written back
entry connect 3 remote
record -> HEADER+01000000000000000003
entry connect 18446744073709551615 local
record -> HEADER+0101ffffffffffffffff
entry close 258
record -> HEADER+030000000000000102
entry fault 4294967296
record -> HEADER+040000000100000000
entry late 9 stay
record -> HEADER+05000000000000000900
entry late 9 close
record -> HEADER+05000000000000000901
entry late 9 halt
record -> HEADER+05000000000000000902
entry piece 7 get KILL say "OK" halt
record -> HEADER+020000000000000007+0003+KILL+02+00000002+"OK"
entry piece 7 get - say - stay
record -> HEADER+02000000000000000700000000000000
bytes HEADER+05000000000000000903
read -> BadEntry(16)

session a record is a run or broken at one place
bytes SESSION
check -> Run
bytes HEADER+ENTRY_0+ENTRY_1+ENTRY_2
check -> Run
bytes HEADER
check -> Run
bytes WRONG_SESSION
check -> Illegal(3)

# One name known at most: a registers and leaves, and b is told something on a new connection.
let A_LEFT "EPMS" 01 00 1111 00000002 00000001 ENTRY_0 ENTRY_1 030000000000000000 ENTRY_0
let B_IS_TOLD 02 0000000000000000 0010 ALIVE_B

session a retired name leaves its room to a new one
bytes A_LEFT+B_IS_TOLD+00+00000006+FIFTH
check -> Run
bytes A_LEFT+B_IS_TOLD+01+00000006+NO_ROOM
check -> Illegal(4)
bytes A_LEFT+B_IS_TOLD+00+00000006+760000000000
check -> Illegal(4)

session every entry is a line and the last line says what is found
transcript run -> "run of 0 entries"0a
entry connect 0 local
entry piece 0 get ALIVE_A say FOURTH stay
entry connect 1 local
entry piece 1 get PORT_A say FOUND_A close
transcript run -> LOOK_UP_LINES
record -> SESSION
entry connect 0 local
entry piece 0 get ALIVE_A say FOURTH stay
entry connect 1 local
entry piece 1 get PORT_A say 770013884d00000600050001610001 close
transcript broken 3 -> WRONG_LOOK_UP_LINES
record -> WRONG_SESSION

let LINES_0_TO_3 "0 connect 18446744073709551615 remote" 0a "1 connect 0 local" 0a "2 piece 18446744073709551615 get - say - stay" 0a
let LINES_3_TO_6 "3 piece 0 get 6b say 4f4b halt" 0a "4 piece 10 get 0123456789abcdef say - close" 0a "5 close 0" 0a
let LINES_6_TO_9 "6 close 18446744073709551615" 0a "7 fault 7" 0a "8 late 0 stay" 0a
let LINES_9_TO_11 "9 late 1 close" 0a "10 late 18446744073709551615 halt" 0a

# The least slot and the largest, every digit, and a number of two digits.
session every kind of entry has its line
entry connect 18446744073709551615 remote
entry connect 0 local
entry piece 18446744073709551615 get - say - stay
entry piece 0 get 6b say "OK" halt
entry piece 10 get 0123456789abcdef say - close
entry close 0
entry close 18446744073709551615
entry fault 7
entry late 0 stay
entry late 1 close
entry late 18446744073709551615 halt
transcript broken 0 -> LINES_0_TO_3+LINES_3_TO_6+LINES_6_TO_9+LINES_9_TO_11+"broken at entry 0"0a

session the last line is written alone
verdict 0 run -> "run of 0 entries"0a
verdict 1 run -> "run of 1 entries"0a
verdict 4 broken 3 -> "broken at entry 3"0a
verdict 12 broken 0 -> "broken at entry 0"0a
verdict 10000 broken 10 -> "broken at entry 10"0a
