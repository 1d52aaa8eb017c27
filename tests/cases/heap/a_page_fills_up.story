pages = 1
mutators = 1
slots = 9

for k in 0..8
0 new {k} plain 0 252 => made {k + 1}
end
0 new 8 plain 0 252 => refused 7
0 describe 7 => described 8 plain 0 252
0 describe 8 => refused 2
0 new 8 plain 0 253 => refused 5
0 get 0 252 => refused 3
0 same 0 0 => is yes
