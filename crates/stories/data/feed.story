feed a request is whole at its last byte
push 00 -> More kept 00
push 01 -> More kept 0001
push 6e00 -> Whole kept NAMES body 6e

feed what comes behind a whole request changes nothing
push NAMES -> Whole kept NAMES body 6e
push ff -> Whole kept NAMES body 6e
push NAMES -> Whole kept NAMES body 6e

feed what comes behind a length of 0 changes nothing
push 0000 -> Bad(Zero) kept 0000
push NAMES -> Bad(Zero) kept 0000
push - -> Bad(Zero) kept 0000

feed what comes behind a length of 8193 changes nothing
push 2001 -> Bad(TooLarge(8193)) kept 2001
push 61*8193 -> Bad(TooLarge(8193)) kept 2001
push NAMES -> Bad(TooLarge(8193)) kept 2001

feed a cut takes back a body
push NAMES -> Whole kept NAMES body 6e
cut 2 -> More kept 0001

feed a cut takes back half a length
push 0000 -> Bad(Zero) kept 0000
cut 1 -> More kept 00
push 01 -> More kept 0001

feed one piece shows a request
push 00016e00ff -> Whole kept NAMES body 6e

feed one piece shows a bad length
push 2001ff -> Bad(TooLarge(8193)) kept 2001

feed one piece shows half a request
push 00037a61 -> More kept 00037a61

feed the largest request has 8192 bytes
push 2000 -> More kept 2000
push 61*1024 -> More kept 2000+61*1024
push 61*7167 -> More kept 2000+61*8191
push 61 -> Whole kept 2000+61*8192 body 61*8192

feed a request is received once its length has come
push 20007a -> More kept 20007a
push 61*8191 -> Whole kept 20007a+61*8191 body 7a+61*8191

feed a long piece is kept as far as its request
push 2000 -> More kept 2000
push 62*20000 -> Whole kept 2000+62*8192 body 62*8192
