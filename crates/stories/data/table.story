table a returning name gets another creation
with known 1 first 0
offer "a" 6 -> 4
register "a" 6 3 -> 4
offer "a" 6 -> Taken
offer "b" 6 -> NoRoom
retire 3 -> yes
retire 3 -> no
offer "a" 6 -> 5
offer "a" 5 -> 1
offer "b" 6 -> 5
register "a" 6 3 -> 5
register "b" 6 4 -> NoRoom

table the name retired longest is forgotten, and with it its creation
with known 2 first 0
register "a" 5 1 -> 1
register "b" 5 2 -> 1
register "c" 6 3 -> NoRoom
retire 1 -> yes
retire 2 -> yes
offer "a" 5 -> 2
register "c" 6 3 -> 4
# The name a is forgotten, b is not.
offer "a" 5 -> 1
offer "b" 5 -> 2
register "b" 6 4 -> 5
register "a" 5 5 -> NoRoom
retire 3 -> yes
register "a" 5 5 -> 1
offer "c" 6 -> NoRoom

table the names retired later are left
with known 2 first 0
register "a" 6 1 -> 4
retire 1 -> yes
register "b" 6 2 -> 5
retire 2 -> yes
register "c" 6 3 -> 6
knows -> active "c" 3 6 retired "b" 5

table the name retired first is forgotten first
with known 2 first 0
register "a" 6 1 -> 4
register "b" 6 2 -> 5
retire 2 -> yes
retire 1 -> yes
knows -> active retired "b" 5 "a" 4
register "c" 6 3 -> 6
knows -> active "c" 3 6 retired "a" 4

table a name is its connection's until that is lost
with known 1 first 0
offer "a" 6 -> 4
knows -> active retired
register "a" 6 3 -> 4
owner "a" -> 3
knows -> active "a" 3 4 retired
retire 3 -> yes
owner "a" -> -
knows -> active retired "a" 4

table short creations come in turn and leave the counter
register "v" 5 0 -> 1
retire 0 -> yes
register "v" 5 0 -> 2
retire 0 -> yes
register "v" 5 0 -> 3
retire 0 -> yes
register "v" 5 0 -> 1
retire 0 -> yes
register "v" 6 0 -> 4

table the counter goes round
with known 4096 first 4294967295
register "a" 6 0 -> 4294967295
register "b" 6 1 -> 4
with known 4096 first 4294967294
register "a" 6 0 -> 4294967294
register "b" 6 1 -> 4294967295
with known 4096 first 0
register "a" 6 0 -> 4
register "b" 6 1 -> 5

table names keep the order in which they came
register "a" 6 0 -> 4
register "b" 6 1 -> 5
register "c" 6 2 -> 6
retire 1 -> yes
retire 0 -> yes
retire 3 -> no
knows -> active "c" 2 6 retired "b" 5 "a" 4
register "b" 6 5 -> 7
knows -> active "c" 2 6 "b" 5 7 retired "a" 4

table a name returns while two others are active
register "a" 6 0 -> 4
register "b" 6 1 -> 5
register "c" 6 2 -> 6
retire 1 -> yes
offer "b" 6 -> 7
register "b" 6 7 -> 7
offer "a" 6 -> Taken
knows -> active "a" 0 4 "c" 2 6 "b" 7 7 retired

table names that a port mapper may come to are known
with known 2 first 9 active "a" 6 4 3 retired "b" 1 -> yes
knows -> active "a" 3 4 retired "b" 1
owner "a" -> 3
offer "a" 6 -> Taken
offer "b" 5 -> 2
offer "b" 6 -> 9
register "c" 6 4 -> 9
knows -> active "a" 3 4 "c" 4 9 retired
retire 3 -> yes
offer "a" 6 -> 10
with known 2 first 0 active "a" 6 4 0 "b" 5 3 1 retired -> yes
with known 2 first 0 active retired "a" 1 "b" 4294967295 -> yes
with known 0 first 0 active retired -> yes

table names that no port mapper comes to are told
# One too many.
with known 1 first 0 active "a" 6 4 0 "b" 5 3 1 retired -> no
with known 2 first 0 active "a" 6 4 0 retired "b" 5 "c" 6 -> no
with known 2 first 0 active retired "a" 4 "b" 5 "c" 6 -> no
# A name twice, and a slot.
with known 2 first 0 active "a" 6 4 0 "a" 6 5 1 retired -> no
with known 2 first 0 active "a" 6 4 0 retired "a" 5 -> no
with known 2 first 0 active retired "a" 4 "a" 5 -> no
with known 2 first 0 active "a" 6 4 0 "b" 6 5 0 retired -> no
# A creation that no node of its version is given.
with known 2 first 0 active "a" 6 3 0 retired -> no
with known 2 first 0 active "a" 5 4 0 retired -> no
with known 2 first 0 active "a" 5 0 0 retired -> no
with known 2 first 0 active retired "a" 0 -> no
