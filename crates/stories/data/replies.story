wire a creation has 4 bytes from version 6 on
alive 6 0 4 -> 760000000004
alive 6 0 4294967295 -> 7600ffffffff
alive 6 1 0 -> 760100000000
alive 6 2 0 -> 760200000000
alive 5 0 1 -> 79000001
alive 5 0 2 -> 79000002
alive 5 0 3 -> 79000003
alive 5 1 0 -> 79010000

wire an answer to a registration has a creation of 4 or 2 bytes
read alive 760000000004 -> Given(4)
read alive 76000102030409 -> Given(16909060)
read alive 79000003 -> Given(3)
read alive 760000 -> Short
read alive 790000 -> Short
read alive 76 -> Short
read alive - -> Short
read alive 760200000000 -> Refused(2)
read alive 7602 -> Refused(2)
read alive 79010000 -> Refused(1)
read alive 58 -> BadTag(88)

wire an answer to a look-up has the registered fields
read port2 FOUND_A -> 5000 77 0 6 5 "a" - sent FOUND_A
read port2 NOT_FOUND -> None sent NOT_FOUND
read port2 - -> Short
read port2 77 -> Short
read port2 770013 -> Short
read port2 58 -> BadTag(88)
read port2 FOUND_STRANGE -> Strange

# 8,192 bytes are 13, the name's one and the extra ones.
let FOUND_LARGEST 77 00 1388 4d 00 0006 0005 0001 "a" 1ff2 07*8178
let FOUND_TOO_LARGE 77 00 1388 4d 00 0006 0005 0001 "a" 1ff3 07*8179

wire fields of more than 8192 bytes are strange
read port2 FOUND_LARGEST -> 5000 77 0 6 5 "a" 07*8178 sent FOUND_LARGEST
read port2 FOUND_TOO_LARGE -> Strange

# The fields of a registration have 12 bytes beside the name and the extra bytes.
wire as many bytes are missing as the answer has at least
missing alive 76000000000409 -> 1 1 4 3 2 1 0 0
missing alive 7900000309 -> 1 1 2 1 0 0
missing alive 760200 -> 1 1 0 0
missing alive 5800 -> 1 0 0
missing port2 770100 -> 1 1 0 0
missing port2 5800 -> 1 0 0
missing port2 FOUND_A+09 -> 1 1 12 11 10 9 8 7 6 5 4 3 2 1 1 0 0
