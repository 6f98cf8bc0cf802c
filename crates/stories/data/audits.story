# Files of one recording, the oldest first: how many entries are one run, and how the last file ends; or the file, from 0, where it breaks.

# The local connection 0 registers a, by worker 1. CLOSES goes on there, by worker 2, and behind it nothing is open.
let FIRST BEGINNING 00000001 ENTRY_0 00000001 ENTRY_1
let FIRST_OF_1 HEADER ENTRY_0 ENTRY_1
let OLD_A 0001 "a" 1388 00000004
let AT_3 HEADER_2 0000000000000003 00 00000000 00000001 00000000 OLD_A
let THIRD AT_3 00000003 ENTRY_0

session files that lead on are one run
audit steady 3 FIRST CLOSES THIRD -> run 4 Whole
audit steady 3 FIRST CLOSES -> run 3 Whole
audit steady 3 FIRST -> run 2 Whole
audit steady 3 -> run 0 Whole
audit steady 3 BEGINNING BEGINNING -> run 0 Whole
# One of version 1 begins at place 0, with nothing known.
audit steady 3 FIRST_OF_1 CLOSES -> run 3 Whole
audit steady 3 BEGINNING FIRST_OF_1 CLOSES -> run 3 Whole
audit steady 3 FIRST_OF_1 FIRST_OF_1 -> apart 1 by Position
# The first ones were removed.
audit steady 3 CLOSES THIRD -> run 2 Whole
audit steady 3 THIRD -> run 1 Whole

session a file that was left out, exchanged or read twice is seen by the places
audit steady 3 FIRST THIRD -> apart 1 by Position
audit steady 3 CLOSES FIRST THIRD -> apart 1 by Position
audit steady 3 FIRST THIRD CLOSES -> apart 1 by Position
audit steady 3 FIRST CLOSES CLOSES THIRD -> apart 2 by Position

let OTHER_PORT "EPMS" 02 00 1112 00000002 00000002
let RELAXED "EPMS" 02 01 1111 00000002 00000002
let MORE "EPMS" 02 00 1111 00000003 00000002
let KNOWN "EPMS" 02 00 1111 00000002 00000003

session a file of another configuration is seen before its place and its state
audit steady 3 FIRST OTHER_PORT+CLOSES[16..] -> apart 1 by Config
audit steady 3 FIRST RELAXED+CLOSES[16..] -> apart 1 by Config
audit steady 3 FIRST MORE+CLOSES[16..] -> apart 1 by Config
audit steady 3 FIRST KNOWN+CLOSES[16..] -> apart 1 by Config
audit steady 3 FIRST OTHER_PORT+THIRD[16..] -> apart 1 by Config
audit steady 3 FIRST CLOSES RELAXED+THIRD[16..] -> apart 2 by Config

let TO_69 CLOSES[..69]
let TO_53 CLOSES[..53]
# The creation, the connection's slot and the name's, the port, the extra bytes, and that a is retired.
session a file that begins in another state at its place is seen
audit steady 3 FIRST CLOSES[..53]+05+CLOSES[54..] -> apart 1 by State
audit steady 3 FIRST CLOSES[..61]+01+TO_69[62..]+01+CLOSES[70..] -> apart 1 by State
audit steady 3 FIRST CLOSES[..38]+89+CLOSES[39..] -> apart 1 by State
audit steady 3 FIRST HEADER_2+0000000000000002+AT_3[24..] -> apart 1 by State
audit steady 3 FIRST HEADER_2+0000000000000002+00+00000000*3 -> apart 1 by State
audit steady 3 FIRST CLOSES[..24]+01+CLOSES[25..] -> apart 1 by State
audit steady 3 FIRST CLOSES AT_3[..24]+01+AT_3[25..] -> apart 2 by State
# At another place, that is told.
audit steady 3 FIRST HEADER_2+0000000000000003+TO_53[24..]+05+CLOSES[54..] -> apart 1 by Position

session the last file may be cut, and counts as far as it is whole
times 73 84 audit steady 3 FIRST CLOSES[..$] -> run 2 Entry
audit steady 3 FIRST CLOSES[..72] -> run 2 Whole
times 1 71 audit steady 3 FIRST CLOSES[..$] -> run 2 Start
audit steady 3 FIRST - -> run 2 Start
audit steady 3 FIRST CLOSES THIRD+000000 -> run 4 Entry
# The first file may be the last one. What is no whole start is no record.
times 38 50 audit steady 3 FIRST[..$] -> run 0 Entry
audit steady 3 FIRST[..51] -> run 1 Whole
times 52 92 audit steady 3 FIRST[..$] -> run 1 Entry
times 1 36 audit steady 3 FIRST[..$] -> fault 0 Bad(Truncated(0))
audit steady 3 - -> fault 0 Bad(Truncated(0))
# Another one may not.
times 73 84 audit steady 3 FIRST CLOSES[..$] THIRD -> fault 1 Bad(Truncated(72))
times 1 71 audit steady 3 FIRST CLOSES[..$] THIRD -> fault 1 Bad(Truncated(0))
# A cut file goes on elsewhere.
audit steady 3 FIRST THIRD[..60] -> apart 1 by Position

let NONE_CLOSES 00000002 03 0000000000000001

session an entry that can't follow breaks the run in its file
audit steady 3 FIRST CLOSES_START+NONE_CLOSES -> broken 1 at 0
audit steady 3 FIRST CLOSES+NONE_CLOSES THIRD -> broken 1 at 1
audit steady 3 FIRST CLOSES+NONE_CLOSES+00 -> broken 1 at 1
audit steady 3 FIRST+NONE_CLOSES CLOSES -> broken 0 at 2
audit steady 3 WRONG_SESSION CLOSES -> broken 0 at 3
# What is no record is told before that, and a file that begins elsewhere before what it holds.
audit steady 3 FIRST CLOSES+NONE_CLOSES+00 THIRD -> fault 1 Bad(Truncated(98))
audit steady 3 FIRST CLOSES+NONE_CLOSES+0000000206 THIRD -> fault 1 Bad(BadEntry(98))
audit steady 3 FIRST THIRD+NONE_CLOSES+0000000206 -> apart 1 by Position

session a file that is no record is told
audit steady 3 FIRST "EPMT" -> fault 1 Bad(BadMagic)
audit steady 3 FIRST "EPMS"07 CLOSES -> fault 1 Bad(BadVersion(7))
audit steady 3 FIRST CLOSES[..5]+02+CLOSES[6..] -> fault 1 Bad(BadConfig)
audit steady 3 FIRST CLOSES[..70]+00+CLOSES[71..] -> fault 1 Bad(BadState)
audit steady 3 FIRST CLOSES+0000000206 -> fault 1 Bad(BadEntry(85))

# Each file is read in one pull, behind which stands one that finds the end.
session the turns are those of each file
audit steady 2 FIRST CLOSES THIRD -> run 4 Whole
audit steady 1 FIRST CLOSES THIRD -> fault 0 TooManyTurns { sent: 0 }
audit never 1000 FIRST CLOSES -> fault 0 TooManyTurns { sent: 0 }
audit slow 5 FIRST CLOSES -> run 3 Whole
audit slow 4 FIRST CLOSES -> fault 0 TooManyTurns { sent: 0 }
# FIRST has 93 bytes, and CLOSES 85.
audit single 94 FIRST CLOSES -> run 3 Whole
audit single 93 FIRST CLOSES -> fault 0 TooManyTurns { sent: 0 }
audit single 93 CLOSES FIRST -> fault 1 TooManyTurns { sent: 0 }
audit single 94 CLOSES FIRST -> apart 1 by Position
audit steady:0 3 FIRST CLOSES -> fault 0 ReadFault
audit steady:1 3 FIRST CLOSES -> fault 0 ReadFault
audit single:90 200 CLOSES FIRST -> fault 1 ReadFault
