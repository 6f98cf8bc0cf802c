# Two connections and two names at most.
state parts are told by whether a port mapper comes to them
build -> owned
row "a" 4 0
old "b" 5
conn 0 local holding -
conn 1 remote waiting 00
build -> owned
conn 1 local done -
conn 9 remote waiting -
build -> owned

state slots rise, and only a connection that waits has bytes
conn 1 remote waiting 00
conn 1 remote waiting 00
build -> none
row "a" 4 0
conn 1 remote waiting 00
conn 0 local holding -
build -> none
row "a" 4 0
conn 0 local holding 00
build -> none
conn 0 local done 00
build -> none

state a name is that of a local connection that holds it
row "a" 4 0
conn 0 remote holding -
build -> strange
row "a" 4 0
conn 0 local done -
build -> strange
row "a" 4 0
conn 1 remote waiting 00
build -> strange
conn 0 local holding -
build -> strange

state a connection that waits has heard no whole request and no bad length
conn 0 local waiting 00016e
build -> strange
conn 0 local waiting 0000
build -> strange

state a name and a slot stand once, within the limits, with creations that are given
row "a" 4 0
old "a" 5
conn 0 local holding -
build -> strange
row "a" 4 0
row "b" 5 0
conn 0 local holding -
build -> strange
row "a" 4 0
old "b" 5
old "c" 6
conn 0 local holding -
build -> strange
conn 1 remote waiting 00
conn 2 local done -
conn 3 local done -
build -> strange
row "a" 0 0
conn 0 local holding -
build -> strange
old "a" 0
build -> strange

# What is kept is compared with what comes of the same course, and of one that differs in one thing.
story a new machine is empty
kept -> yes
connect local -> 0
kept -> no

let ALIVE_A_ELSEWHERE 000e 78 1389 4d 00 0006 0005 0001 "a" 0000

story states differ by the port and the creation of a name
connect local -> 0
piece 0 get ALIVE_A -> say FOURTH stay
keep
with strict conn 1024 known 4096 first 4
connect local -> 0
piece 0 get ALIVE_A -> say FOURTH stay
kept -> yes
with strict conn 1024 known 4096 first 4
connect local -> 0
piece 0 get ALIVE_A_ELSEWHERE -> say FOURTH stay
kept -> no
with strict conn 1024 known 4096 first 5
connect local -> 0
piece 0 get ALIVE_A -> say FIFTH stay
kept -> no

story states differ by the order of retired names
connect local -> 0
piece 0 get ALIVE_A -> say FOURTH stay
connect local -> 1
piece 1 get ALIVE_B -> say FIFTH stay
close 0 -> gone
close 1 -> gone
keep
with strict conn 1024 known 4096 first 4
connect local -> 0
piece 0 get ALIVE_A -> say FOURTH stay
connect local -> 1
piece 1 get ALIVE_B -> say FIFTH stay
close 1 -> gone
close 0 -> gone
kept -> no

story states differ by the slot of a connection
connect local -> 0
connect local -> 1
close 0 -> gone
keep
with strict conn 1024 known 4096 first 4
connect local -> 0
connect local -> 1
close 1 -> gone
kept -> no

story states differ by whether a connection is local
connect local -> 0
keep
with strict conn 1024 known 4096 first 4
connect remote -> 0
kept -> no

story states differ by the bytes received and by the phase
connect local -> 0
piece 0 get 00 -> say - stay
keep
with strict conn 1024 known 4096 first 4
connect local -> 0
piece 0 get 01 -> say - stay
kept -> no
with strict conn 1024 known 4096 first 4
connect local -> 0
piece 0 get - -> say - stay
keep
late 0 -> close
kept -> no

story states differ by whether the port mapper has ended
with relaxed conn 8 known 8 first 4
connect local -> 0
piece 0 get ALIVE_A -> say FOURTH stay
connect local -> 1
piece 1 get 00016a -> say - close
keep
with relaxed conn 8 known 8 first 4
connect local -> 0
piece 0 get ALIVE_A -> say FOURTH stay
connect local -> 1
piece 1 get KILL -> say "OK" halt
kept -> no
