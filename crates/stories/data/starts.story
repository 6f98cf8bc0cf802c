session a session that begins with a name is read and written back
bytes CLOSES
read -> 1
check -> Run
begins -> 4369 no 2 2 first 2 row "a" 5000 4 0 conn 0 yes Holding - workers 2

session a session that begins with a name is shown from its first entry on
bytes CLOSES
play steady steady 100 -> true "0 close 0"0a"run of 1 entries"0a
bytes CLOSES_START
play steady steady 100 -> true "run of 0 entries"0a

session a start that is cut is faulted at place 0
bytes CLOSES
times 0 71 cut $ -> Truncated(0)
cut 72 -> 0
times 73 84 cut $ -> Truncated(72)
cut 85 -> 1

session a start that no machine comes to is refused
bytes CLOSES
at 4 03 -> BadVersion(3)
at 5 02 -> BadConfig
at 8 00000000 -> BadConfig
# The header is not whole, so its settings are not looked at.
at 5 02 cut 36 -> Truncated(0)
# They are looked at before the state.
at 5 02 cut 71 -> BadConfig
# The place is any.
at 16 ff*8 -> 1
# The port mapper has ended, or neither ended nor not.
at 24 01 cut 72 -> 0
at 24 02 -> BadState
at 24 02 cut 71 -> Truncated(0)
# There are no such many names and connections.
at 25 ffffffff -> Truncated(0)
at 29 ffffffff -> Truncated(0)
at 33 ffffffff -> Truncated(0)
# The entry is read as a connection that waits, and one byte is left for another entry.
at 36 02 -> Truncated(84)
# The name owns an open connection that doesn't hold a name.
at 36 00 -> BadState
# The name a is none, and those of an old version have creations 1 to 3 alone.
at 47 1f -> BadState
at 42 05 -> BadState
at 42 050005000161000000000003 -> 1
at 53 00 -> BadState
at 53 03 -> BadState
at 53 05 -> 1
at 50 ffffffff -> 1
# It is told of a state before it is told of an entry.
at 53 00 cut 84 -> BadState
at 53 00 cut 71 -> Truncated(0)
# The slot of the name, and that of the connection.
at 61 01 -> BadState
at 69 01 -> BadState
# One that holds a name is local.
at 70 00 -> BadState
at 70 02 -> BadState
# It doesn't hold the name, or is in no phase.
at 71 00 -> BadState
at 71 02 -> BadState
at 71 03 -> BadState
# Behind the number of the worker, which is any, the entry is as it is without one.
at 72 ffffffff -> 1
at 76 06 -> BadEntry(72)
at 76 0102 -> BadEntry(72)
at 76 02 -> Truncated(72)

session numbered entries that are cut are whole up to the last whole one
bytes 00000000+ENTRY_0+00000000+ENTRY_1+00000000+ENTRY_2+00000000+ENTRY_3
times 0 13 whole numbered $ -> 0
times 14 55 whole numbered $ -> 14
times 56 69 whole numbered $ -> 56
times 70 108 whole numbered $ -> 70
whole numbered 109 -> 109
bytes 0000000006
whole numbered 5 -> 0

session a session of version 1 is one of version 2 without workers
bytes SESSION
upgrade -> UPGRADED
bytes WRONG_SESSION
check -> Illegal(3)
# One of version 2 stays as it is.
bytes UPGRADED
upgrade -> UPGRADED
bytes CLOSES
upgrade -> CLOSES
bytes REMOTE_OPEN
upgrade -> REMOTE_OPEN

let WRONG_UPGRADED HEADER_2 0000000000000000 00 00000000*3 00000000 ENTRY_0 00000000 ENTRY_1 00000000 ENTRY_2 00000000 WRONG_ENTRY_3

session a session in version 2 is found to be and told as what it was
bytes UPGRADED
read -> 4
begins -> 4369 no 2 2 first 0 workers 0 0 0 0
check -> Run
play steady steady 100 -> true LOOK_UP_LINES
bytes WRONG_SESSION
upgrade -> WRONG_UPGRADED
bytes WRONG_UPGRADED
check -> Illegal(3)

session a session without a worker for each entry is not written
bytes CLOSES
workers -> BadWorkers
workers 2 2 -> BadWorkers
workers 2 -> CLOSES

session a session that begins where no machine comes to is not written
bytes CLOSES
alone 2 -> BadState
# That there is no worker is told first.
alone -> BadWorkers

session a session is left without its remote peers and with its workers
bytes SESSION
check -> Run
local -> SESSION
bytes UPGRADED
check -> Run
local -> UPGRADED
bytes CLOSES
check -> Run
local -> CLOSES
bytes MIXED
check -> Run
local -> LOCAL_LEFT
bytes REMOTE_OPEN
check -> Run
local -> RemoteOpen
