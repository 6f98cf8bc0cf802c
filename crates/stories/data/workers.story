# A worker over the links 7 and 8: what is logged, written and given up at each turn. The desk has two places and strict checks where a
# story does not say it. Behind each line the worker stops, and what it holds is closed.
worker one who asks is answered and let go
gives 7 NAMES
fresh 7 local -> connect 0 local
ready 7 -> piece 0 get NAMES say NONE_LISTED close ; close 0 ; gets 7 NONE_LISTED ; ends 7

worker a node is served until its peer ends
gives 7 ALIVE_A
fresh 7 local -> connect 0 local
ready 7 -> piece 0 get ALIVE_A say FOURTH stay ; gets 7 FOURTH
ready 7 -> close 0 ; ends 7

worker a node is served until the worker stops
gives 7 ALIVE_A
fresh 7 local -> connect 0 local
ready 7 -> piece 0 get ALIVE_A say FOURTH stay ; gets 7 FOURTH
stop -> close 0

worker a node may be silent
gives 7 ALIVE_A later-at-2
fresh 7 local -> connect 0 local
ready 7 -> piece 0 get ALIVE_A say FOURTH stay ; gets 7 FOURTH
ready 7
idle
late 7 -> late 0 stay
stop -> close 0

worker one who says nothing and one whose link fails are let go
fresh 7 local -> connect 0 local
late 7 -> late 0 close ; close 0 ; ends 7
gives 7 - steady:0
fresh 7 local -> connect 0 local
ready 7 -> fault 0 ; ends 7

worker a remote peer is told the names alone
with relaxed conn 2
gives 7 ALIVE_A
fresh 7 remote ; ready 7 -> connect 0 remote ; piece 0 get ALIVE_A say - close ; close 0 ; ends 7
gives 7 DUMP
fresh 7 remote ; ready 7 -> connect 0 remote ; piece 0 get DUMP say - close ; close 0 ; ends 7
gives 7 KILL
fresh 7 remote ; ready 7 -> connect 0 remote ; piece 0 get KILL say - close ; close 0 ; ends 7
gives 7 STOP_A
fresh 7 remote ; ready 7 -> connect 0 remote ; piece 0 get STOP_A say - close ; close 0 ; ends 7
gives 7 NAMES
fresh 7 remote -> connect 0 remote
ready 7 -> piece 0 get NAMES say NONE_LISTED close ; close 0 ; gets 7 NONE_LISTED ; ends 7

worker links are told by their keys
ready 9
late 9
fresh 9 local -> connect 0 local
ready 9 -> fault 0 ; ends 9

worker a key that comes again has another link
fresh 7 local -> connect 0 local
fresh 7 local -> close 0 ; connect 0 local
stop -> close 0

worker one for whom there is no place is let go
with strict conn 1
fresh 7 local -> connect 0 local
fresh 8 local -> ends 8
stop -> close 0

worker a node that another one has stopped is let go
with relaxed conn 2
gives 7 ALIVE_A
gives 8 STOP_A
fresh 7 local ; ready 7 -> connect 0 local ; piece 0 get ALIVE_A say FOURTH stay ; gets 7 FOURTH
fresh 8 local -> connect 1 local
ready 8 -> piece 1 get STOP_A say "STOPPED" close ; close 1 ; gets 8 "STOPPED" ; ends 8
idle -> close 0 ; ends 7

worker one sees what another one has registered
gives 7 ALIVE_A
gives 8 NAMES
fresh 7 local ; ready 7 -> connect 0 local ; piece 0 get ALIVE_A say FOURTH stay ; gets 7 FOURTH
fresh 8 local -> connect 1 local
ready 8 -> piece 1 get NAMES say A_LISTED close ; close 1 ; gets 8 A_LISTED ; ends 8
stop -> close 0
gives 8 DUMP
fresh 7 local ; ready 7 -> connect 0 local ; piece 0 get ALIVE_A say FOURTH stay ; gets 7 FOURTH
ready 7 -> close 0 ; ends 7
fresh 8 local -> connect 0 local
ready 8 -> piece 0 get DUMP say A_RETIRED close ; close 0 ; gets 8 A_RETIRED ; ends 8

worker what waits is written at the next news
gives 7 NAMES later-at-1
fresh 7 local ; ready 7 -> connect 0 local ; piece 0 get NAMES say NONE_LISTED close
ready 7 -> close 0 ; gets 7 NONE_LISTED ; ends 7
gives 7 NAMES later-at-1
fresh 7 local ; ready 7 -> connect 0 local ; piece 0 get NAMES say NONE_LISTED close
idle
ready 7 -> close 0 ; gets 7 NONE_LISTED ; ends 7

worker another one is served while the peer of one reads nothing
gives 7 NAMES later-at-1
gives 8 NAMES
fresh 7 local ; ready 7 -> connect 0 local ; piece 0 get NAMES say NONE_LISTED close
fresh 8 local -> connect 1 local
ready 8 -> piece 1 get NAMES say NONE_LISTED close ; close 1 ; gets 8 NONE_LISTED ; ends 8
ready 7 -> close 0 ; gets 7 NONE_LISTED ; ends 7

worker what waits is lost where the time of its connection is over first
gives 7 NAMES later-at-1
fresh 7 local ; ready 7 -> connect 0 local ; piece 0 get NAMES say NONE_LISTED close
late 7 -> late 0 close ; close 0 ; ends 7

# The last reply is tried again until its link has said Later a thousand times.
worker a worker ends with the port mapper
gives 7 KILL
fresh 7 local ; ready 7 -> connect 0 local ; piece 0 get KILL say "OK" halt ; gets 7 "OK" ; over
fresh 8 local -> over
gives 7 KILL later-1-to-100
fresh 7 local ; ready 7 ; fresh 8 local -> connect 0 local ; piece 0 get KILL say "OK" halt ; gets 7 "OK" ; over
gives 7 KILL later-1-to-1000
fresh 7 local ; ready 7 ; fresh 8 local -> connect 0 local ; piece 0 get KILL say "OK" halt ; gets 7 "OK" ; over
gives 7 KILL later-1-to-1001
fresh 7 local ; ready 7 ; fresh 8 local -> connect 0 local ; piece 0 get KILL say "OK" halt ; over

worker a worker goes on no further where the port mapper has ended
killed -> connect 0 local ; piece 0 get KILL say "OK" halt ; over
fresh 7 local -> ends 7 ; over
fresh 8 local -> over
gives 7 -
killed -> connect 0 local ; piece 0 get KILL say "OK" halt ; over
idle -> over
fresh 7 local -> over

# Link 7 moves two bytes at a call, of which it makes 16 at most: one for each two bytes of its request, then one for each two of its reply,
# which it gets up to the call that fails. Link 8 is told what it asks.
worker a link that fails ends alone
gives 8 PORT_B
gives 7 NAMES pairs
turns fresh 7 local ; fresh 8 local ; ready 7 ; ready 8 ; ready 7 ; ready 7
times 0 2 fails $ -> connected 2 ; gets 8 NOT_FOUND ; ends 8
fails 3 -> connected 2 ; gets 7 NONE_LISTED[..2] ; gets 8 NOT_FOUND ; ends 8
times 4 15 fails $ -> connected 2 ; gets 7 NONE_LISTED ; gets 8 NOT_FOUND ; ends 8
gives 7 NAMES pairs
turns fresh 7 local ; fresh 8 local ; ready 7 ; late 7 ; ready 8
times 0 15 fails $ -> connected 2 ; gets 8 NOT_FOUND ; ends 8
gives 7 ALIVE_A pairs
turns fresh 7 local ; ready 7 ; ready 7 ; fresh 8 local ; ready 7 ; ready 7 ; ready 7 ; ready 7 ; ready 8 ; ready 7 ; ready 7 ; ready 7
times 0 8 fails $ -> connected 2 ; gets 8 NOT_FOUND ; ends 8
fails 9 -> connected 2 ; gets 7 FOURTH[..2] ; gets 8 NOT_FOUND ; ends 8
fails 10 -> connected 2 ; gets 7 FOURTH[..4] ; gets 8 NOT_FOUND ; ends 8
times 11 15 fails $ -> connected 2 ; gets 7 FOURTH ; gets 8 NOT_FOUND ; ends 8
gives 7 ALIVE_A pairs
turns fresh 7 local ; ready 7 ; ready 7 ; ready 7 ; ready 7 ; ready 7 ; ready 7 ; ready 7 ; ready 7 ; fresh 8 local ; ready 8
times 0 8 fails $ -> connected 2 ; gets 8 NOT_FOUND ; ends 8
fails 9 -> connected 2 ; gets 7 FOURTH[..2] ; gets 8 NOT_FOUND ; ends 8
fails 10 -> connected 2 ; gets 7 FOURTH[..4] ; gets 8 NOT_FOUND ; ends 8
times 11 15 fails $ -> connected 2 ; gets 7 FOURTH ; gets 8 NOT_FOUND ; ends 8
gives 7 ALIVE_A pairs
turns fresh 7 local ; fresh 8 local ; ready 7 ; ready 7 ; ready 7 ; ready 7 ; ready 7 ; ready 7 ; ready 7 ; ready 7 ; idle ; ready 8
times 0 8 fails $ -> connected 2 ; gets 8 NOT_FOUND ; ends 8
fails 9 -> connected 2 ; gets 7 FOURTH[..2] ; gets 8 NOT_FOUND ; ends 8
fails 10 -> connected 2 ; gets 7 FOURTH[..4] ; gets 8 NOT_FOUND ; ends 8
times 11 15 fails $ -> connected 2 ; gets 7 FOURTH ; gets 8 NOT_FOUND ; ends 8
gives 7 KILL pairs
turns fresh 8 local ; fresh 7 local ; ready 7 ; ready 8 ; ready 7
times 0 2 fails $ -> connected 2 ; gets 8 NOT_FOUND ; ends 8
times 3 15 fails $ -> connected 2 ; gets 7 "OK" ; gets 8 NOT_FOUND ; ends 8
