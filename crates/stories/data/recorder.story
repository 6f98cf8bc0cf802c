# What is written list by list, and what a recorder over a device answers at the header, at two entries and at the others, with the numbers
# of workers, and how many puts it makes and bytes it writes: the first ones of the session.
session a record is a header and entries list by list
entry connect 0 local
entry piece 0 get ALIVE_A say FOURTH stay
entries -> ENTRY_0+ENTRY_1
entries 0 0 -> 00000000+ENTRY_0+00000000+ENTRY_1
record -> HEADER+ENTRY_0+ENTRY_1
entry connect 1 local
entry piece 1 get PORT_A say FOUND_A close
entries -> ENTRY_2+ENTRY_3
entries 0 0 -> 00000000+ENTRY_2+00000000+ENTRY_3

# It fails at once, within the header, after 41 bytes, and within the last entry; and it says Later 999 times in each call, a thousand
# times in one, on end or not, and for ever.
session a recorder writes a front of a record
entry connect 0 local
entry piece 0 get ALIVE_A say FOURTH stay
entry connect 1 local
entry piece 1 get PORT_A say FOUND_A close
bytes UPGRADED
recorder steady 0 0 0 0 -> yes yes yes puts 3 bytes 146
recorder fours 0 0 0 0 -> yes yes yes puts 38 bytes 146
recorder steady:0 0 0 0 0 -> no no no puts 1 bytes 0
recorder fours:2 0 0 0 0 -> no no no puts 3 bytes 8
recorder fours:11 0 0 0 0 -> yes no no puts 12 bytes 41
recorder twelves:13 0 0 0 0 -> yes yes no puts 14 bytes 141
recorder later-999 0 0 0 0 -> yes yes yes puts 3000 bytes 146
recorder later-1-to-1001 0 0 0 0 -> yes no no puts 1001 bytes 37
recorder forties-but-501-to-1001 0 0 0 0 -> yes yes yes puts 1004 bytes 146
recorder forties-but-501-to-1002 0 0 0 0 -> yes no no puts 1002 bytes 77
recorder never 0 0 0 0 -> no no no puts 1000 bytes 0
# Entries without a worker each end it.
recorder steady 0 0 0 -> yes yes no puts 2 bytes 93
recorder steady 0 0 0 0 0 -> yes yes no puts 2 bytes 93
recorder steady 0 -> yes no no puts 1 bytes 37
recorder steady -> yes no no puts 1 bytes 37
