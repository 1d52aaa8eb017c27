each quanta, phase
    0 | roots
    1 | roots
    2 | roots
    3 | marking
    4 | marking
    5 | sweeping
    6 | sweeping
    7 | sweeping
    8 | moving
    9 | moving
    10 | moving
    11 | idle
    12 | idle
    13 | idle
    14 | idle
    15 | idle
    16 | idle
    17 | idle
    18 | idle
    19 | idle
do
story a mutator leaves after {quanta} quanta, in the phase {phase}
pages = 8
mutators = 2
slots = 256
defrag_below = 9
defrag_pages = 3

version 2
for k in 0..12
0 new {k} words 252 => made {k + 1}
end
0 new 12 refs 400 => made 13
for k in 1..8
0 clear {k} => done
end
for k in 0..100
1 new {k} plain 1 0 => made {k + 14}
end
begin
for k in 0..quanta
quantum 256
end
# 512 units for roots, 610 for marking, 783 for sweeping, one for each change of phase, and then moves
? phase {phase}
1 leave => done
for k in 0..60
quantum 256
end
? phase idle
? objects 106 ..
begin
for k in 0..60
quantum 256
end
? phase idle
? objects 6 ..
1 join => done
1 describe 99 => refused 2
end
