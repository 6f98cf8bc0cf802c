# How the devices answer, and how many turns there are: pulls and puts.
session a session is read to its end and told whole
bytes SESSION
play steady steady 3 -> true LOOK_UP_LINES
tell steady steady 3 -> true "run of 4 entries"0a
play slow slow 8 -> true LOOK_UP_LINES
play never steady 1000 -> TooManyTurns { sent: 0 } -
bytes WRONG_SESSION
play steady steady 3 -> false WRONG_LOOK_UP_LINES
tell steady steady 3 -> false "broken at entry 3"0a

# Byte by byte: 16 pulls and one that finds the end, and 17 puts.
session turns are pulls and puts
bytes HEADER
play single single 34 -> true "run of 0 entries"0a
play single single 33 -> TooManyTurns { sent: 16 } "run of 0 entries"
play single single 17 -> TooManyTurns { sent: 0 } -
play single single 16 -> TooManyTurns { sent: 0 } -
play single single 0 -> TooManyTurns { sent: 0 } -
bytes HEADER+01
play single single 100 -> Bad(Truncated(16)) -

let NONE_FOUND "run of 0 entries"

session a device that fails at any call is told
bytes HEADER
times 0 16 play single:$ single 34 -> ReadFault -
play single single:0 34 -> WriteFault { sent: 0 } -
times 1 16 play single single:$ 34 -> WriteFault { sent: $ } NONE_FOUND[..$]

session nothing is written of a session that is cut
bytes SESSION
times 0 15 front $ steady steady 3 -> Bad(Truncated(0)) -
times 17 25 front $ steady steady 3 -> Bad(Truncated(16)) -
times 27 63 front $ steady steady 3 -> Bad(Truncated(26)) -
times 65 73 front $ steady steady 3 -> Bad(Truncated(64)) -
times 75 108 front $ steady steady 3 -> Bad(Truncated(74)) -

# An entry that is whole changes nothing of the verdict, and one that is not is told before it.
session what stands behind a broken place is read
bytes WRONG_SESSION+030000000000000000
play steady steady 100 -> false LINE_0+LINE_1+LINE_2+WRONG_LINE_3+"4 close 0"0a"broken at entry 3"0a
bytes WRONG_SESSION+06
play steady steady 100 -> Bad(BadEntry(109)) -
bytes WRONG_SESSION+0300
play steady steady 100 -> Bad(Truncated(109)) -
bytes WRONG_SESSION+03000000000000000006
play steady steady 100 -> Bad(BadEntry(118)) -
