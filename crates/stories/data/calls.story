call a kill is allowed or not
kill gives "OK" steady -> Killed wrote KILL left -
kill gives "NO" steady -> NotAllowed wrote KILL left -
kill gives - steady -> NotAllowed wrote KILL left -
kill gives "O" steady -> Short wrote KILL left -
kill gives "NX" steady -> Strange wrote KILL left -
kill gives "OKAY" steady -> Killed wrote KILL left "AY"

call a stop finds the name or not
stop "a" gives "STOPPED" steady -> Stopped wrote STOP_A left -
stop "a" gives "NOEXIST" steady -> NoExist wrote STOP_A left -
stop "a" gives - steady -> NotAllowed wrote STOP_A left -
stop "a" gives "STOPPE" steady -> Short wrote STOP_A left -
stop "a" gives "STOPPEX" steady -> Strange wrote STOP_A left -
stop "a" gives "NOEXIST!" steady -> NoExist wrote STOP_A left "!"

call a command ends at the thousandth later
kill gives "OK" never -> TooManyTurns wrote - left "OK"
stop "a" gives "STOPPED" never -> TooManyTurns wrote - left "STOPPED"

call a list is read to its end
names gives A_LISTED single -> 4369,"a"=5000 wrote NAMES left -
names gives A_LISTED sevens -> 4369,"a"=5000 wrote NAMES left -
names gives A_LISTED large -> 4369,"a"=5000 wrote NAMES left -
names gives NONE_LISTED large -> 4369 wrote NAMES left -

call what is no list has a fault
names gives 000011 steady -> Short wrote NAMES left -
names gives - steady -> Short wrote NAMES left -
names gives 00001111"name a at port 7"0a"x"0a steady -> Strange wrote NAMES left -
names gives 00001111"name a"0a steady -> Strange wrote NAMES left -
names gives 00001111"name a at port 7" steady -> Strange wrote NAMES left -

call a dump is given as it came
dump gives A_ACTIVE steady -> 4369 "active name     a at port 5000, fd = 0"0a wrote DUMP left -
dump gives A_RETIRED steady -> 4369 "old/unused name a at port 5000, fd = -1"0a wrote DUMP left -
dump gives NONE_LISTED steady -> 4369 - wrote DUMP left -
dump gives 000011 steady -> Short wrote DUMP left -

call a look-up finds all fields and reads no further
lookup "a" gives FOUND_A+"rest" single -> 5000 77 0 6 5 "a" - wrote PORT_A left "rest"
lookup "a" gives FOUND_A+"rest" pairs -> 5000 77 0 6 5 "a" - wrote PORT_A left "rest"
lookup "a" gives FOUND_A+"rest" fives -> 5000 77 0 6 5 "a" - wrote PORT_A left "rest"
lookup "a" gives FOUND_A+"rest" large -> 5000 77 0 6 5 "a" - wrote PORT_A left "rest"

call a look-up without fields finds nothing or fails
lookup "a" gives NOT_FOUND steady -> None wrote PORT_A left -
lookup "a" gives 77ff steady -> None wrote PORT_A left -
lookup "a" gives 770013 steady -> Short wrote PORT_A left -
lookup "a" gives 77 steady -> Short wrote PORT_A left -
lookup "a" gives - steady -> Short wrote PORT_A left -
lookup "a" gives 58 steady -> BadTag(88) wrote PORT_A left -
lookup "a" gives FOUND_STRANGE steady -> Strange wrote PORT_A left -

let ASKED_AND_FOUND PORT_A FOUND_A

# Byte by byte: 4 calls write the request and 15 read the answer, which is whole then, so that no further call is made.
call a failing stream is told from the request to the answer
lookup "a" gives FOUND_A single:0 -> Write wrote - left FOUND_A
times 1 3 lookup "a" gives FOUND_A single:$ -> Write wrote PORT_A[..$] left FOUND_A
times 4 18 lookup "a" gives FOUND_A single:$ -> Read wrote PORT_A left ASKED_AND_FOUND[$..]
lookup "a" gives FOUND_A single:19 -> 5000 77 0 6 5 "a" - wrote PORT_A left -

call a call ends at the thousandth later
lookup "a" gives NOT_FOUND later-0-to-999 -> None wrote PORT_A left -
lookup "a" gives NOT_FOUND later-0-to-1000 -> TooManyTurns wrote - left NOT_FOUND
lookup "a" gives NOT_FOUND later-1-to-1000 -> None wrote PORT_A left -
lookup "a" gives NOT_FOUND later-1-to-1001 -> TooManyTurns wrote PORT_A left NOT_FOUND
lookup "a" gives NOT_FOUND later-but-400-to-1000 -> None wrote PORT_A left -
lookup "a" gives NOT_FOUND later-but-400-to-1001 -> TooManyTurns wrote PORT_A left NOT_FOUND
names gives A_LISTED silent-from-1 -> TooManyTurns wrote NAMES left A_LISTED

call a registration is given its creation or hands the stream back
register 5000 "a" - gives FOURTH steady -> 4 wrote ALIVE_A left -
register 5000 "a" - gives 79000003 steady -> 3 wrote ALIVE_A left -
register 5000 "a" - gives 790000030909 steady -> 3 wrote ALIVE_A left 0909
register 5000 "a" - gives 760000 steady -> Short wrote ALIVE_A left -
register 5000 "a" - gives - steady -> Short wrote ALIVE_A left -
register 5000 "a" - gives NO_ROOM steady -> Refused(2) wrote ALIVE_A left 00000000
register 5000 "a" - gives 7602 steady -> Refused(2) wrote ALIVE_A left -
register 5000 "a" - gives 79010000 steady -> Refused(1) wrote ALIVE_A left 0000
register 5000 "a" - gives 58 steady -> BadTag(88) wrote ALIVE_A left -
register 5000 "a" - gives 5800 steady -> BadTag(88) wrote ALIVE_A left 00
register 5000 "a" - gives FOURTH never -> TooManyTurns wrote - left FOURTH

# A request of 8,192 bytes: 13, the name's one and 8,178 (1ff2) extra ones.
let LARGEST_FIELDS 1388 4d 00 0006 0005 0001 "a" 1ff2 07*8178

call the largest registration is written and read whole
register 5000 "a" 07*8178 gives FOURTH steady -> 4 wrote 200078+LARGEST_FIELDS left -
lookup "a" gives 7700+LARGEST_FIELDS steady -> 5000 77 0 6 5 "a" 07*8178 wrote PORT_A left -
