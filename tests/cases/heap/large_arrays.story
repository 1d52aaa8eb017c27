story the largest array of one spine
pages = 32
mutators = 2
slots = 4
statics = 1

0 new 0 words 63504 => made 1
0 new 1 words 63505 => refused 7
0 new 1 words 4000001 => refused 5

story no room for the largest array of one spine
pages = 31
mutators = 2
slots = 4
statics = 1

0 new 0 words 63504 => refused 7
0 new 1 words 63505 => refused 7
0 new 1 words 4000001 => refused 5

story an array of 63505 words
pages = 34
mutators = 1
slots = 1

0 new 0 words 63505 => made 1
0 put 0 63504 9 => done
0 get 0 63504 => word 9
0 get 0 63505 => refused 3
0 new 0 words 4000001 => refused 5

story no room for an array of 63505 words
pages = 33
mutators = 1
slots = 1

0 new 0 words 63505 => refused 7
0 put 0 63504 9 => refused 2
0 get 0 63504 => refused 2
0 get 0 63505 => refused 2
0 new 0 words 4000001 => refused 5

story an array of 4000000 words
pages = 1994
mutators = 1
slots = 1

0 new 0 words 4000000 => made 1

story no room for an array of 4000000 words
pages = 1993
mutators = 1
slots = 1

0 new 0 words 4000000 => refused 7
