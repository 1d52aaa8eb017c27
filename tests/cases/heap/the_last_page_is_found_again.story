pages = 4096
mutators = 2
slots = 256

for k in 0..129
0 new {k} words 63504 => made {k + 1}
end
for k in 0..131
1 new {k} words 252 => made {k + 130}
end
? page 4095 size 256 held 8 of 8
1 new 131 words 252 => refused 7
1 clear 130 => done
begin
quantum 1000000
? phase idle
? page 4094 size 256 held 8 of 8
? page 4095 size 256 held 7 of 8
1 new 130 words 252 => made 261
? page 4095 size 256 held 8 of 8
1 new 131 words 252 => refused 7

story the last page of 66 is found again
pages = 66
mutators = 1
slots = 3

0 new 0 plain 1 0 => made 1
for k in 1..13497
0 new 1 plain 1 0 => made {2 * k}
0 store 1 0 0 => done
0 new 0 plain 1 0 => made {2 * k + 1}
0 store 0 0 1 => done
end
0 clear 1 => done
0 new 1 plain 1 0 => made 26994
? page 65 size 5 held 409 of 409
0 new 2 plain 1 0 => refused 7
0 clear 1 => done
begin
quantum 1000000
? phase idle
? page 64 size 5 held 409 of 409
? page 65 size 5 held 408 of 409
0 new 1 plain 1 0 => made 26995
? page 65 size 5 held 409 of 409
0 new 2 plain 1 0 => refused 7
