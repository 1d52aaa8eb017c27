pages = 1
mutators = 7
slots = 1

version 2
for m in 0..7
{m} join => refused 15
end
7 join => refused 1
