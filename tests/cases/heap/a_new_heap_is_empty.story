pages = 3
mutators = 2
slots = 4
statics = 1
defrag_below = 2
defrag_pages = 1

? phase idle
? units 0
? pages 3 free 3
? roots 9 used 0
? objects 0 parts 0 old 0
0 new 0 plain 0 0 => made 1
