pages = 3
mutators = 1
slots = 4

0 new 0 plain 0 0 => made 1
? page 0 size 4 held 1 of 512
0 new 1 plain 0 13 => made 2
? page 1 size 18 held 1 of 113
0 new 2 plain 0 226 => made 3
? page 2 size 256 held 1 of 8
0 new 3 plain 0 252 => made 4
? page 2 size 256 held 2 of 8
