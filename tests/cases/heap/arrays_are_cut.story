pages = 40
mutators = 1
slots = 1

0 new 0 refs 252 => made 1
? page 0 size 256 held 1 of 8
? objects 1 parts 1 old 0
0 new 0 refs 253 => made 2
? page 0 size 256 held 2 of 8
? page 1 size 6 held 1 of 341
? page 2 size 5 held 1 of 409
? objects 2 parts 4 old 0
0 new 0 words 505 => made 3
? page 3 size 7 held 1 of 292
? page 0 size 256 held 4 of 8
? page 2 size 5 held 2 of 409
? objects 3 parts 8 old 0
0 new 0 plain 3 4 => made 4
? page 4 size 11 held 1 of 186
? objects 4 parts 9 old 0
0 new 0 words 63504 => made 5
? page 35 size 256 held 8 of 8
? page 36 size 256 held 1 of 8
? objects 5 parts 262 old 0
0 new 0 words 4000001 => refused 5
0 new 0 plain 4294967295 1 => refused 5
0 new 0 plain 1 4294967295 => refused 5
