story spines and pieces of 63505 words move
pages = 37
mutators = 1
slots = 7
defrag_below = 37
defrag_pages = 3

# a page full of blocks of 5 words, one full of blocks of 6, and six blocks of 256: root spine, last middle spine and last piece
# stand on pages of their own; first middle spine and first piece share one with blocks that are dropped
0 new 2 plain 0 1 => made 1
0 new 3 plain 0 1 => made 2
0 new 4 plain 0 1 => made 3
for k in 4..410
0 new 1 plain 0 1 => made {k}
end
0 new 5 plain 0 2 => made 410
0 new 6 plain 0 2 => made 411
for k in 412..751
0 new 1 plain 0 2 => made {k}
end
for k in 751..757
0 new 1 words 252 => made {k}
end
0 clear 1 => done
0 new 0 words 63505 => made 757
for i in 0, 1, 251, 252, 253, 63503, 63504, 63505, 63755, 63756, 63757, 64007, 64008, 3999995, 3999996, 3999999, 4000000
0 put 0 {i} 7{i} => {done if i < 63505 else refused 3}
0 store 0 {i} 2 => refused 4
end
for cycle in 0..2
begin
for quantum in 0..5
quantum 1000000
end
for i in 0, 1, 251, 252, 253, 63503, 63504, 63505, 63755, 63756, 63757, 64007, 64008, 3999995, 3999996, 3999999, 4000000
0 get 0 {i} => {word 7{i} if i < 63505 else refused 3}
0 load 1 0 {i} => refused 4
0 same 1 2 => is no
end
end
# the first cycle moves them, so the second one looks alone
? units 3734

story spines and pieces of 63505 refs move
pages = 37
mutators = 1
slots = 7
defrag_below = 37
defrag_pages = 3

# a page full of blocks of 5 words, one full of blocks of 6, and six blocks of 256: root spine, last middle spine and last piece
# stand on pages of their own; first middle spine and first piece share one with blocks that are dropped
0 new 2 plain 0 1 => made 1
0 new 3 plain 0 1 => made 2
0 new 4 plain 0 1 => made 3
for k in 4..410
0 new 1 plain 0 1 => made {k}
end
0 new 5 plain 0 2 => made 410
0 new 6 plain 0 2 => made 411
for k in 412..751
0 new 1 plain 0 2 => made {k}
end
for k in 751..757
0 new 1 words 252 => made {k}
end
0 clear 1 => done
0 new 0 refs 63505 => made 757
for i in 0, 1, 251, 252, 253, 63503, 63504, 63505, 63755, 63756, 63757, 64007, 64008, 3999995, 3999996, 3999999, 4000000
0 put 0 {i} 7{i} => refused 4
0 store 0 {i} 2 => {done if i < 63505 else refused 3}
end
for cycle in 0..2
begin
for quantum in 0..5
quantum 1000000
end
for i in 0, 1, 251, 252, 253, 63503, 63504, 63505, 63755, 63756, 63757, 64007, 64008, 3999995, 3999996, 3999999, 4000000
0 get 0 {i} => refused 4
0 load 1 0 {i} => {ref 1 if i < 63505 else refused 3}
0 same 1 2 => is yes
end
end
# the first cycle moves them, so the second one looks alone
? units 67239

story spines and pieces of 4000000 words move
pages = 1997
mutators = 1
slots = 7
defrag_below = 1997
defrag_pages = 3

# a page full of blocks of 8 words, one full of blocks of 72, and six blocks of 256: root spine and last piece stand on pages of
# their own; two middle spines share one with blocks that are dropped
0 new 2 plain 0 4 => made 1
0 new 3 plain 0 4 => made 2
for k in 3..257
0 new 1 plain 0 4 => made {k}
end
0 new 4 plain 0 68 => made 257
0 new 5 plain 0 68 => made 258
for k in 259..285
0 new 1 plain 0 68 => made {k}
end
for k in 285..291
0 new 1 words 252 => made {k}
end
0 clear 1 => done
0 new 0 words 4000000 => made 291
for i in 0, 1, 251, 252, 253, 63503, 63504, 63505, 63755, 63756, 63757, 64007, 64008, 3999995, 3999996, 3999999, 4000000
0 put 0 {i} 7{i} => {done if i < 4000000 else refused 3}
0 store 0 {i} 2 => refused 4
end
for cycle in 0..2
begin
for quantum in 0..5
quantum 1000000
end
for i in 0, 1, 251, 252, 253, 63503, 63504, 63505, 63755, 63756, 63757, 64007, 64008, 3999995, 3999996, 3999999, 4000000
0 get 0 {i} => {word 7{i} if i < 4000000 else refused 3}
0 load 1 0 {i} => refused 4
0 same 1 2 => is no
end
end
# the first cycle moves them, so the second one looks alone
? units 126285

story spines and pieces of 4000000 refs move
pages = 1997
mutators = 1
slots = 7
defrag_below = 1997
defrag_pages = 3

# a page full of blocks of 8 words, one full of blocks of 72, and six blocks of 256: root spine and last piece stand on pages of
# their own; two middle spines share one with blocks that are dropped
0 new 2 plain 0 4 => made 1
0 new 3 plain 0 4 => made 2
for k in 3..257
0 new 1 plain 0 4 => made {k}
end
0 new 4 plain 0 68 => made 257
0 new 5 plain 0 68 => made 258
for k in 259..285
0 new 1 plain 0 68 => made {k}
end
for k in 285..291
0 new 1 words 252 => made {k}
end
0 clear 1 => done
0 new 0 refs 4000000 => made 291
for i in 0, 1, 251, 252, 253, 63503, 63504, 63505, 63755, 63756, 63757, 64007, 64008, 3999995, 3999996, 3999999, 4000000
0 put 0 {i} 7{i} => refused 4
0 store 0 {i} 2 => {done if i < 4000000 else refused 3}
end
for cycle in 0..2
begin
for quantum in 0..5
quantum 1000000
end
for i in 0, 1, 251, 252, 253, 63503, 63504, 63505, 63755, 63756, 63757, 64007, 64008, 3999995, 3999996, 3999999, 4000000
0 get 0 {i} => refused 4
0 load 1 0 {i} => {ref 1 if i < 4000000 else refused 3}
0 same 1 2 => is yes
end
end
# the first cycle moves them, so the second one looks alone
? units 4126285
