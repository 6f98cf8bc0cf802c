let TWO_LISTED 00001111 "name b at port 0" 0a "name a at port 65535" 0a
let NAMES_WITH_PORTS 00001111 "name a at port 5 at port 7" 0a "name b at port 0" 0a "name a at port at port 65535" 0a

wire a list of names has a line for each
names 4369 -> 00001111
read names 00001111 -> 4369
names 4369 "a" 5000 -> A_LISTED
read names A_LISTED -> 4369,"a"=5000
names 4369 "b" 0 "a" 65535 -> TWO_LISTED
read names TWO_LISTED -> 4369,"b"=0,"a"=65535
names 4369 "a at port 5" 7 "b" 0 "a at port" 65535 -> NAMES_WITH_PORTS
read names NAMES_WITH_PORTS -> 4369,"a at port 5"=7,"b"=0,"a at port"=65535

wire the last at port of a line stands before its port
read names 00001111"name a at port 5000"0a -> 4369,"a"=5000
read names 00001111"name a at port 5 at port 7"0a -> 4369,"a at port 5"=7
read names 00001111"name a at port at port 7"0a -> 4369,"a at port"=7
read names 00001111"name a at port 00007"0a -> 4369,"a"=7
read names 00001111"name a at port 65535"0a -> 4369,"a"=65535

wire the first strange line of a list is told
read names 000011 -> Short
read names 00001111"name a"0a -> StrangeLine(0)
read names 00001111"name a at port 65536"0a -> StrangeLine(0)
read names 00001111"name a at port 000007"0a -> StrangeLine(0)
read names 00001111"name a at port "0a -> StrangeLine(0)
read names 00001111"name  at port 7"0a -> StrangeLine(0)
read names 00001111"name a at port 7" -> StrangeLine(0)
read names 000011110a -> StrangeLine(0)
read names 00001111"name a at port 7"0a"x"0a -> StrangeLine(1)

let LAST_SLOT 00001111 "active name     a at port 5000, fd = 18446744073709551615" 0a
let ONE_OF_EACH 00001111 "active name     a at port 5000, fd = 4" 0a "old/unused name b at port 5000, fd = -1" 0a

wire a dump tells active names from retired ones
dump 4369 "a" 5000 0 -> A_ACTIVE
dump 4369 "a" 5000 18446744073709551615 -> LAST_SLOT
dump 4369 "a" 5000 - -> A_RETIRED
dump 4369 "a" 5000 4 "b" 5000 - -> ONE_OF_EACH
dump 4369 -> 00001111

wire a dump is a port and text
read dump 000011 -> Short
read dump 00001111 -> 4369 -
read dump 00010000"old"0a -> 65536 "old"0a

let LONGEST_LISTED 00001111 "name " c3*1020 " at port 1" 0a
let LONGEST_DUMPED 00001111 "old/unused name " c3*1020 " at port 5000, fd = -1" 0a

wire the longest name is listed whole
names 4369 c3*1020 1 -> LONGEST_LISTED
dump 4369 c3*1020 5000 - -> LONGEST_DUMPED
