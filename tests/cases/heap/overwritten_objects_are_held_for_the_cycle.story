each count, units
    64 | 1095
    65 | 1096
    100 | 1131
do
story {count} overwritten objects are held for the cycle
pages = 4
mutators = 2
slots = 256

for k in 0..count
0 new {k} plain 0 0 => made {k + 1}
end
begin
for k in 0..count
0 clear {k} => done
end
quantum 1000000 -> {units} idle
? objects {count} ..
begin
quantum 1000000 -> 1031 idle
? objects 0 ..
? pages 4 free 4
end
