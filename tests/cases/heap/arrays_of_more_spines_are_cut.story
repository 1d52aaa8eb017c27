pages = 102
mutators = 1
slots = 1

0 new 0 words 63505 => made 1
? objects 1 parts 256 old 0
? pages 102 free 68
? page 0 size 6 held 1 of 341
? page 1 size 256 held 8 of 8
? page 2 size 5 held 2 of 409
? page 33 size 256 held 5 of 8
0 new 0 words 63756 => made 2
? objects 2 parts 512 old 0
? page 0 size 6 held 2 of 341
? page 2 size 5 held 3 of 409
? page 65 size 256 held 3 of 8
0 new 0 words 63757 => made 3
? objects 3 parts 769 old 0
? page 0 size 6 held 4 of 341
? page 2 size 5 held 4 of 409
? page 97 size 256 held 1 of 8
