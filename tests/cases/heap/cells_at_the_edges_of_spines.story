each size, pages
    63504 | 35
    63505 | 35
    63756 | 35
    63757 | 35
    4000000 | 1995
do
story cells at the edges of spines of {size} words
pages = {pages}
mutators = 1
slots = 3

0 new 2 plain 0 0 => made 1
0 new 0 words {size} => made 2
for i in 0, 1, 251, 252, 253, 63503, 63504, 63505, 63755, 63756, 63757, 64007, 64008, 3999995, 3999996, 3999999, 4000000
0 put 0 {i} 7{i} => {done if i < size else refused 3}
0 store 0 {i} 2 => refused 4
end
for cycle in 0..2
begin
for quantum in 0..5
quantum 1000000
end
for i in 0, 1, 251, 252, 253, 63503, 63504, 63505, 63755, 63756, 63757, 64007, 64008, 3999995, 3999996, 3999999, 4000000
0 get 0 {i} => {word 7{i} if i < size else refused 3}
0 load 1 0 {i} => refused 4
0 same 1 2 => is no
end
end

story cells at the edges of spines of {size} refs
pages = {pages}
mutators = 1
slots = 3

0 new 2 plain 0 0 => made 1
0 new 0 refs {size} => made 2
for i in 0, 1, 251, 252, 253, 63503, 63504, 63505, 63755, 63756, 63757, 64007, 64008, 3999995, 3999996, 3999999, 4000000
0 put 0 {i} 7{i} => refused 4
0 store 0 {i} 2 => {done if i < size else refused 3}
end
for cycle in 0..2
begin
for quantum in 0..5
quantum 1000000
end
for i in 0, 1, 251, 252, 253, 63503, 63504, 63505, 63755, 63756, 63757, 64007, 64008, 3999995, 3999996, 3999999, 4000000
0 get 0 {i} => refused 4
0 load 1 0 {i} => {ref 1 if i < size else refused 3}
0 same 1 2 => is yes
end
end
end
