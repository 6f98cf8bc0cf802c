# Much of everything. No memory is refused to these stories by `make faults`: they take too long.

table retired names are known until they are forgotten
times 4 4067 register "n$" 6 $ -> $
times 4068 4099 register "n$"+6e*1000 6 $ -> $
offer "other" 6 -> NoRoom
# They all retire, those of two connections the other way round.
retire 5 -> yes
retire 4 -> yes
retire 7 -> yes
retire 6 -> yes
times 8 4099 retire $ -> yes
counts -> 0 4096
retired 0 -> "n5" 5
retired 1 -> "n4" 4
retired 2 -> "n7" 7
retired 4095 -> "n4099"+6e*1000 4099
offer "other" 6 -> 4100
# A known name returns, and a new one takes the place of the oldest.
register "n7" 6 7 -> 4100
counts -> 1 4095
retired 0 -> "n5" 5
register "other" 6 4096 -> 4101
counts -> 2 4094
retired 0 -> "n4" 4

session a piece of 65535 bytes comes back
entry piece 5 get 61*65535 say 62*3 stay
size -> 65570
entry piece 5 get 61 say 62*70000 stay
size -> 70033

session the first piece that is too long is told
size -> 16
entry piece 5 get 61*65536 say - stay
size -> TooLong(0)
entry piece 5 get 61 say - stay
entry piece 5 get 61*65536 say - stay
entry piece 5 get 61*65536 say - stay
size -> TooLong(1)

session a piece of 65535 bytes is recorded
entry close 1
entry piece 5 get 61*65535 say - stay
entries -> 030000000000000001+020000000000000005+ffff+61*65535+0000000000
entries 7 8 -> 00000007+030000000000000001+00000008+020000000000000005+ffff+61*65535+0000000000
bytes BEGINNING+00000007+030000000000000001+00000008+020000000000000005+ffff+61*65535+0000000000
recorder steady 7 8 -> yes yes yes puts 2 bytes 65605

# That there is no number for an entry is told first.
session a piece that is too long ends a recording
entry close 1
entry piece 5 get 61*65536 say - stay
entries -> TooLong(1)
entries 7 8 -> TooLong(1)
entries 7 -> BadWorkers
bytes BEGINNING
recorder steady 7 8 -> yes no no puts 1 bytes 37
recorder steady 7 -> yes no no puts 1 bytes 37

session ten thousand entries come back
times 1 10000 entry close $
size -> 90016

# Of how many of 256 values at each of the 109 bytes it is a record:
# - 256 at 77: the port, the second last byte of both limits, four slots, what came, and the replies with the length of the last thing that
#   came, 2 + 2 + 4 * 8 + 16 + 4 + 6 + 15;
# - 255 at 2, the last byte of both limits: one is at least 1;
# - 3 at 3: the two fates; and the length 6 of the first reply, which may end at entry 3 (16) or at the last byte (51);
# - 2 at 6: whether checks are relaxed; the kinds of both connects, which may be late ones with the last byte of the slot as their fate;
#   whether these are local; and the length 16 of what came first, which may end in front of the last fate (52);
# - 1 at the other 21.
session whatever a byte of a session is it is judged
bytes SESSION
judged -> 20264

# The same of 85 bytes:
# - 256 at 34: the port, the second last byte of both limits, the place, port and type and protocol and version 8 bits up and lowest version
#   of the node, 3 bytes of its creation, the worker, the slot of the entry, 2 + 2 + 8 + 7 + 3 + 4 + 8;
# - 255 at 2, the last byte of both limits; 250 at the last byte of the highest version, which is at least 6 where the creation is 4; 252 at
#   the last byte of the creation, which is at least 4 then; 223 at the name, which is no control character;
# - 2 at 3: whether checks are relaxed, whether the port mapper has ended, and whether the connection was closed or failed;
# - 1 at the other 43.
session whatever a byte of a start is it is judged
bytes CLOSES
judged -> 9988

story a long log is taken out from its front on
times 0 999 connect local -> $
times 0 999 close $ -> gone
times 999 0 connect local -> $
times 0 999 close $ -> gone
times 999 500 connect local -> $
times 500 999 close $ -> gone
advance -> 4096 904 4096
advance -> 904 0 5000
advance -> 0 0 5000

# They leave, the one that came last first: so the slots are given out again from the least on.
story a base follows many nodes that return
with strict conn 300 known 4096 first 4
times 0 299 connect local -> $
times 0 299 piece $ get 0015+7813884d000005+00050008+"%"+0000 -> say FIRST_SHORT stay
times 299 0 close $ -> gone
advance -> 900 0 900
times 0 299 connect local -> $
times 0 299 piece $ get 0015+7813884d000005+00050008+"%"+0000 -> say SECOND_SHORT stay
advance -> 600 0 1500

# The first four connections register nothing, so that the creation of a node is the number of its slot.
let ALIVE_8 0015 78 1388 4d 00 0006 0005 0008
let ALIVE_1020 0409 78 1388 4d 00 0006 0005 03fc

story a thousand connections hold the longest names
with strict conn 1029 known 4096 first 4
times 0 1027 connect local -> $
times 4 1027 piece $ get ALIVE_1020+"%"+78*1012+0000 -> say 7600+% stay
let LISTED NONE_LISTED
times 4 1027 more LISTED "name %" 78*1012 " at port 5000" 0a
piece 0 get NAMES -> say LISTED close
connect local -> 1028
connect local -> Full
open -> 1029

# A name of 1,020 bytes (03fc) and 7,159 extra ones (1bf7) make 8,192 (2000), which come in pieces of 512.
let LONG_FIELDS 1388 4d 00 0006 0005 03fc 78*1020 1bf7 ee*7159
let LONG_DUMPED 00001111 "active name     " 78*1020 " at port 5000, fd = 0" 0a

story the largest registration is kept whole
with strict conn 2 known 1 first 4
connect local -> 0
piece 0 get 200078+LONG_FIELDS[..509] -> say - stay
piece 0 get 78*512 -> say - stay
piece 0 get 78*9+1bf7+ee*501 -> say - stay
times 4 16 piece 0 get ee*512 -> say - stay
piece 0 get eeee -> say FOURTH stay
connect local -> 1
piece 1 get 03fd7a+78*1020 -> say 7700+LONG_FIELDS close
close 1 -> gone
connect local -> 1
piece 1 get DUMP -> say LONG_DUMPED close

story two thousand names are known and dumped, and those that come and go are never refused
with strict conn 2052 known 2048 first 4
times 0 2051 connect local -> $
times 4 2051 piece $ get ALIVE_8+"%"+0000 -> say 7600+% stay
times 4 1027 close $ -> gone
let LISTED NONE_LISTED
times 1028 2051 more LISTED "name % at port 5000" 0a
piece 0 get NAMES -> say LISTED close
let ACTIVE NONE_LISTED
times 1028 2051 more ACTIVE "active name     % at port 5000, fd = $" 0a
let RETIRED 00*0
times 4 1027 more RETIRED "old/unused name % at port 5000, fd = -1" 0a
piece 1 get DUMP -> say ACTIVE+RETIRED close
# A thousand more, before which as many are forgotten, those that retired first.
times 2052 3051 connect local -> 1027 && piece 1027 get ALIVE_8+"%"+0000 -> say 7600+% stay && close 1027 -> gone
times 2052 3051 more RETIRED "old/unused name % at port 5000, fd = -1" 0a
piece 2 get DUMP -> say ACTIVE+RETIRED[47000..] close

story as many names may be active as may be known
with strict conn 1029 known 1024 first 4
times 0 1027 connect local -> $
times 4 1027 piece $ get ALIVE_8+"%"+0000 -> say 7600+% stay
piece 0 get ALIVE_8+"one more"+0000 -> say NO_ROOM close
close 7 -> gone
connect local -> 7
piece 7 get ALIVE_8+"00000404"+0000 -> say 760000000404 stay
piece 1 get ALIVE_8+"one more"+0000 -> say NO_ROOM close

# One connection and one name at most.
let HEADER_OF_ONE "EPMS" 01 00 1111 00000001 00000001
let EMPTY_PIECE 02 0000000000000000 0000 00 00000000

session ten thousand entries are played
bytes HEADER_OF_ONE+ENTRY_0+EMPTY_PIECE*9999
let LINES LINE_0
times 1 9999 more LINES "$ piece 0 get - say - stay" 0a
play steady steady 1000 -> true LINES+"run of 10000 entries"0a

session half of ten thousand connections are left
bytes HEADER_OF_ONE+SIX*1666+LOCAL_0+REMOTE_1+LOCAL_2+REMOTE_0
leave steady steady 1000 -> Run HEADER_OF_ONE+THREE*1666+LOCAL_0+LOCAL_2
local -> HEADER_OF_ONE+THREE*1666+LOCAL_0+LOCAL_2

# 16,777,216 bytes are the most that is read, and one more tells that there are more.
call a list without end is too long
endless names -> TooLong took 16777217
endless dump -> TooLong took 16777217

call lists of four thousand names are read whole
names gives NONE_LISTED+A_LISTED[4..]*4096 steady -> 4369+,"a"=5000*4096 wrote NAMES left -
dump gives NONE_LISTED+A_LISTED[4..]*4096 steady -> 4369 A_LISTED[4..]*4096 wrote DUMP left -
