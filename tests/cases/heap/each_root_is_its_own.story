pages = 9
mutators = 2
slots = 4
statics = 1

for m in 0..2
for k in 0..4
{m} describe {k} => refused 2
{m} new {k} plain 0 {m * 4 + k} => made {m * 4 + k + 1}
{m} storestatic 0 {k} => done
end
end
? roots 9 used 9
for m in 0..2
for k in 0..4
{m} describe {k} => described {m * 4 + k + 1} plain 0 {m * 4 + k}
end
end
0 loadstatic 0 0 => ref 8
0 clear 4 => refused 1
1 clear 4 => refused 1
2 clear 0 => refused 1
0 storestatic 1 0 => refused 8
0 loadstatic 0 1 => refused 8
0 describe 0 => described 8 plain 0 7
1 clear 3 => done
? roots 9 used 8
