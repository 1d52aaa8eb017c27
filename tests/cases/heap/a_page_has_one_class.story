for slot in 0, 1
story a page has one class, also if slot {slot} is named
pages = 1
mutators = 1
slots = 9

0 new 0 plain 0 0 => made 1
0 new {slot} plain 0 1 => refused 7
end
