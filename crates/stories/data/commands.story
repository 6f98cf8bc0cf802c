story the port mapper ends once no name is active
connect local -> 0
piece 0 get ALIVE_A -> say FOURTH stay
connect local -> 1
piece 1 get KILL -> say "NO" close
close 0 -> gone
connect local -> 0
piece 0 get KILL -> say "OK" halt
halted -> yes

story it ends with names active where checks are relaxed
with relaxed conn 1024 known 4096 first 4
connect local -> 0
piece 0 get ALIVE_A -> say FOURTH stay
connect local -> 1
piece 1 get KILL -> say "OK" halt
connect local -> Halted
close 0 -> Halted
piece 9 get NAMES -> Halted
halted -> yes

story it ends where no name was ever active
connect local -> 0
piece 0 get KILL -> say "OK" halt

story it ends so where checks are relaxed
with relaxed conn 1024 known 4096 first 4
connect local -> 0
piece 0 get KILL -> say "OK" halt

story a stopped name leaves its connection done and is retired once
with relaxed conn 1024 known 4096 first 4
connect local -> 0
piece 0 get ALIVE_A -> say FOURTH stay
connect local -> 1
piece 1 get STOP_A -> say "STOPPED" close
is 0 -> Done
close 0 -> gone
connect local -> 0
piece 0 get DUMP -> say A_RETIRED close
connect local -> 2
piece 2 get STOP_A -> say "NOEXIST" close

story no name is stopped where checks are strict
connect local -> 0
piece 0 get ALIVE_A -> say FOURTH stay
connect local -> 1
piece 1 get STOP_A -> say - close
connect local -> 2
piece 2 get PORT_A -> say FOUND_A close

story other hosts may look up and list alone
with relaxed conn 1024 known 4096 first 4
connect remote -> 0
piece 0 get ALIVE_A -> say - close
connect remote -> 1
piece 1 get DUMP -> say - close
connect remote -> 2
piece 2 get KILL -> say - close
connect remote -> 3
piece 3 get STOP_A -> say - close
connect remote -> 4
piece 4 get NAMES -> say NONE_LISTED close
connect remote -> 5
piece 5 get PORT_A -> say NOT_FOUND close
