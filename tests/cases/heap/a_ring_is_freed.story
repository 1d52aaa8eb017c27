each budget, first, phase, second
    1000 | 416 | idle | 0
    256 | 256 | sweeping | 160
do
story a ring is freed, in quanta of {budget}
pages = 2
mutators = 1
slots = 2

0 new 0 plain 1 0 => made 1
0 new 1 plain 1 0 => made 2
0 store 0 0 1 => done
0 store 1 0 0 => done
0 clear 0 => done
0 clear 1 => done
begin
quantum {budget} -> {first} {phase}
quantum {budget} -> {second} idle
? phase idle
? units 416
? pages 2 free 2
? roots 2 used 0
? objects 0 parts 0 old 0
end
