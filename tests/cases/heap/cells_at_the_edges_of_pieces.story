each size, word, ref, same
    252 | word 0 | ref 0 | is no
    253 | word 252 | ref 3 | is yes
    504 | word 0 | ref 0 | is no
    505 | word 504 | ref 3 | is yes
    63504 | word 0 | ref 0 | is no
do
story cells at the edges of pieces of {size}
pages = 70
mutators = 2
slots = 4
statics = 1

0 new 0 words {size} => made 1
0 new 1 refs {size} => made 2
0 new 2 plain 0 0 => made 3
each i
    0
    251
    252
    503
    504
    {size - 1}
    {size}
do
0 put 0 {i} {i + 1} => {done if i < size else refused 3}
0 store 1 {i} 2 => {done if i < size else refused 3}
end
# what the last cell but one has, the table at the head says
0 get 0 {size - 2} => {word}
0 load 3 1 {size - 2} => {ref}
0 same 3 2 => {same}
each i, word, ref, same
    0 | word 1 | ref 3 | is yes
    1 | word 0 | ref 0 | is no
    250 | word 0 | ref 0 | is no
    251 | word 252 | ref 3 | is yes
    252 | word 253 | ref 3 | is yes
    253 | word 0 | ref 0 | is no
    502 | word 0 | ref 0 | is no
    503 | word 504 | ref 3 | is yes
    504 | word 505 | ref 3 | is yes
    505 | word 0 | ref 0 | is no
    {size - 1} | word {size} | ref 3 | is yes
    {size} | none | none | none
do
0 clear 3 => done
0 get 0 {i} => {word if i < size else refused 3}
0 load 3 1 {i} => {ref if i < size else refused 3}
0 same 3 2 => {same if i < size else is no}
end
end
