pages = 1
mutators = 1
slots = 9

# 9 roots, a header, 409 blocks, a page, and each of three changes of phase
0 new 0 plain 0 1 => made 1
begin
quantum 1000 -> 423 idle
