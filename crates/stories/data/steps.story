# What may be recorded of a state, and what may not: two connections and two names at most.

story a slot is any that is free while connections may open
with strict conn 2 known 2 first 4
connect local -> 0
may connect 1 local -> yes
may connect 18446744073709551615 remote -> yes
may connect 0 local -> no
with strict conn 1 known 2 first 4
connect local -> 0
may connect 1 local -> no

story a creation is any legal one
with strict conn 2 known 2 first 4
connect local -> 0
may piece 0 get ALIVE_A say FOURTH stay -> yes
may piece 0 get ALIVE_A say 7600ffffffff stay -> yes
may piece 0 get ALIVE_A say 760000000003 stay -> no
may piece 0 get ALIVE_A say 760000000000 stay -> no
may piece 0 get ALIVE_A say FIRST_SHORT stay -> no

story a creation is any but the last of the name, on whatever connection it returns
with strict conn 2 known 2 first 4
connect local -> 0
piece 0 get ALIVE_A -> say FOURTH stay
connect local -> 1
close 0 -> gone
may piece 1 get ALIVE_A say FIFTH stay -> yes
may piece 1 get ALIVE_A say FOURTH stay -> no

story the reply and the fate are those of the request and no byte more
with strict conn 2 known 2 first 4
connect local -> 0
may piece 0 get ALIVE_A say FOURTH close -> no
may piece 0 get ALIVE_A say 76000000000400 stay -> no
may piece 0 get ALIVE_A say TAKEN close -> no
may piece 0 get NAMES say NONE_LISTED close -> yes
may piece 0 get NAMES say NONE_LISTED stay -> no
may piece 0 get NAMES say - close -> no
may piece 0 get KILL say "OK" halt -> yes
may piece 0 get KILL say "NO" close -> no

story nothing more is said to a connection that holds a name
with strict conn 2 known 2 first 4
connect local -> 0
piece 0 get ALIVE_A -> say FOURTH stay
may piece 0 get KILL say - stay -> yes
may piece 0 get KILL say "NO" close -> no

story a request is answered at its last byte
with strict conn 2 known 2 first 4
connect local -> 0
piece 0 get 0001 -> say - stay
may piece 0 get 6e say NONE_LISTED close -> yes
may piece 0 get 6e say - stay -> no
may piece 0 get - say - stay -> yes

story nothing more is said to a connection that is done
with strict conn 2 known 2 first 4
connect local -> 0
piece 0 get 0000 -> say - close
may piece 0 get NAMES say - close -> yes
may piece 0 get NAMES say NONE_LISTED close -> no
may late 0 close -> yes

story a time-out ends one that waits and no other
with strict conn 2 known 2 first 4
connect local -> 0
piece 0 get 0001 -> say - stay
may late 0 close -> yes
may late 0 stay -> no
with strict conn 2 known 2 first 4
connect local -> 0
piece 0 get ALIVE_A -> say FOURTH stay
may late 0 stay -> yes
may late 0 close -> no
may fault 0 -> yes

story only an open connection goes
with strict conn 2 known 2 first 4
connect local -> 0
may close 0 -> yes
may close 1 -> no
may fault 1 -> no
may late 1 close -> no
may piece 1 get NAMES say NONE_LISTED close -> no

story nothing happens after the end
with strict conn 2 known 2 first 4
connect local -> 0
piece 0 get KILL -> say "OK" halt
may close 0 -> no
may connect 1 local -> no
