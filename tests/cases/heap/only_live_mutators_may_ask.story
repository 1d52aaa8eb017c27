pages = 1
mutators = 3
slots = 1
live = 2

version 2
1 clear 0 => done
1 join => refused 15
2 clear 0 => refused 14
2 join => done
3 join => refused 1
2 join => refused 15
1 leave => done
1 clear 0 => refused 14
0 clear 0 => done
2 clear 0 => done
