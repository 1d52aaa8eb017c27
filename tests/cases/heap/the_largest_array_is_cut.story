pages = 1994
mutators = 1
slots = 1

0 new 0 words 4000000 => made 1
? objects 1 parts 15938 old 0
? pages 1994 free 0
? page 0 size 72 held 1 of 28
? page 1 size 256 held 8 of 8
? page 1992 size 256 held 8 of 8
? page 1993 size 8 held 1 of 256
