wire a name is 1 to 1020 bytes and no control character
name "a" -> "a"
name 61*255 -> 61*255
name 61*1020 -> 61*1020
name c3a9 -> c3a9
name - -> Empty
name 00*256 -> BadByte(0)
name 00*1021 -> TooLong
name 61*1021 -> TooLong
name 611f -> BadByte(1)
name 7f -> BadByte(0)

wire names are equal by their bytes
equal 7a6162 7a6162 -> yes
equal 7a6162 7a6163 -> no

# 8,192 bytes are 13, the name's one and the extra ones.
let LARGEST_SENT 2000 78 1388 4d 00 0006 0005 0001 "a" 1ff2 5a*8178

wire a registration fits into 8192 bytes
node 5000 "a" - -> ALIVE_A
node 5000 "a" 5a*8178 -> LARGEST_SENT
node 5000 "a" 5a*8179 -> TooLong

let A_WITH_1 78 1388 4d 00 0006 0005 0001 "a" 0001 01
let A_WITH_2 78 1388 4d 00 0006 0005 0001 "a" 0001 02
let A_WITH_1_AND_2 78 1388 4d 00 0006 0005 0001 "a" 0002 0102

wire registrations are equal by their fields, and copied with them
equal A_WITH_1 A_WITH_1 -> yes
equal A_WITH_1 A_WITH_2 -> no
request A_WITH_1_AND_2 -> Alive 5000 77 0 6 5 "a" 0102 sent 0010+A_WITH_1_AND_2

let A_WITHOUT_ITS_EXTRA_BYTE 78 1388 4d 00 0006 0005 0001 "a" 0001
let A_WITH_A_BYTE_BEHIND 78 1388 4d 00 0006 0005 0001 "a" 0000 00

wire a body that is no request has its first fault
request - -> Short
request 79 -> UnknownTag
request 6161 -> UnknownTag
request 7061 -> UnknownTag
request 6e*8192 -> LengthsDisagree
request 78 -> Short
request 6e00 -> LengthsDisagree
request 7a1f -> Name(BadByte(0))
request 7a -> Name(Empty)
request A_WITHOUT_ITS_EXTRA_BYTE -> LengthsDisagree
request A_WITH_A_BYTE_BEHIND -> LengthsDisagree

let A_BODY 78 1388 4d 00 0006 0005 0001 "a" 0000

wire a request is read by its first byte and sent behind its length
request 6e -> Names sent NAMES
request 64 -> Dump sent DUMP
request 6b -> Kill sent KILL
request 7361 -> Stop "a" sent STOP_A
request 7a61 -> Port "a" sent PORT_A
request A_BODY -> Alive 5000 77 0 6 5 "a" - sent ALIVE_A

# A name of 1,020 bytes (03fc) and 7,159 extra ones (1bf7) make 8,192.
let LARGEST_BODY 78 1388 4d 00 0006 0005 03fc c3*1020 1bf7 5a*7159

wire a request of 8192 bytes is the largest
request LARGEST_BODY -> Alive 5000 77 0 6 5 c3*1020 5a*7159 sent 2000+LARGEST_BODY
request LARGEST_BODY+00 -> LengthsDisagree
