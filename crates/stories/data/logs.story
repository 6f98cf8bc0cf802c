# Logs that are sealed in segments, each recorded from where it begins, and logs that are taken out from their oldest entries on.
story a log is sealed in segments
connect local -> 0
piece 0 get ALIVE_A -> say FOURTH stay
close 0 -> gone
seal -> first 0 entries 3
connect local -> 0
seal -> first 3 entries 1
seal -> first 4 entries 0
close 0 -> gone
seal -> first 4 entries 1

story a segment is a record that begins where the one before it ended
with strict conn 2 known 2 first 4
connect local -> 0
piece 0 get ALIVE_A -> say FOURTH stay
seal -> first 0 entries 2
as 2
close 0 -> gone
segment -> CLOSES

story segments are sealed while connections are open
with strict conn 8 known 4096 first 4
connect local -> 0
seal -> first 0 entries 1
connect local -> 1
seal -> first 1 entries 1
connect local -> 2
seal -> first 2 entries 1
connect local -> 3
seal -> first 3 entries 1
connect local -> 4
seal -> first 4 entries 1

# Where memory is refused to the list or to the seal, it is left undone.
story what memory is refused to takes no place from those who leave
with strict conn 2 known 4096 first 4
connect local -> 0
connect local -> 1
piece 0 get ALIVE_A -> say FOURTH stay
seal -> first 0 entries 3
active "a" -> yes
maybe piece 1 get NAMES -> say A_LISTED close
connect local -> Full
close 0 -> gone
fault 1 -> gone
open -> 0
active "a" -> no
with strict conn 2 known 4096 first 4
connect local -> 0
connect local -> 1
piece 0 get ALIVE_A -> say FOURTH stay
seal -> first 0 entries 3
piece 1 get NAMES -> say A_LISTED close
maybe seal -> first 3 entries 1
connect local -> Full
close 0 -> gone
fault 1 -> gone
open -> 0
active "a" -> no

story as many as are open leave without memory
times 0 7 with strict conn 1024 known 4096 first 4 && each 0 $ connect local -> @ && each 0 $ close @ -> gone && open -> 0
times 0 7 with strict conn 1024 known 4096 first 4 && each 0 $ connect local -> @ && seal -> first 0 entries $+1 && each 0 $ close @ -> gone && open -> 0

# Names that register, are asked for, stopped, and leave; requests in pieces, malformed ones, and time-outs.
story a base follows the machine
with relaxed conn 2 known 2 first 4
follow
connect local -> 0
piece 0 get ALIVE_A -> say FOURTH stay
piece 0 get PORT_A -> say - stay
late 0 -> stay
connect local -> 1
piece 1 get 00 -> say - stay
piece 1 get 027a -> say - stay
piece 1 get 61 -> say FOUND_A close
close 1 -> gone
connect local -> 1
piece 1 get STOP_A -> say "STOPPED" close
piece 1 get STOP_A -> say - close
close 1 -> gone
close 0 -> gone
connect local -> 0
piece 0 get ALIVE_A -> say FIFTH stay
connect local -> 1
piece 1 get ALIVE_B -> say SIXTH stay
fault 0 -> gone
connect local -> 0
late 0 -> close
fault 0 -> gone
connect local -> 0
piece 0 get 0000 -> say - close
close 1 -> gone
close 0 -> gone
connect local -> 0
piece 0 get KILL -> say "OK" halt

# Of two names that retire, the first is forgotten for a new one, and the second returns.
story a base forgets the name retired longest
with strict conn 2 known 2 first 4
follow
connect local -> 0
piece 0 get ALIVE_A -> say FOURTH stay
connect local -> 1
piece 1 get ALIVE_B -> say FIFTH stay
close 1 -> gone
close 0 -> gone
connect local -> 0
piece 0 get ALIVE_C -> say SIXTH stay
connect local -> 1
piece 1 get ALIVE_A -> say SEVENTH stay
fault 0 -> gone
close 1 -> gone
