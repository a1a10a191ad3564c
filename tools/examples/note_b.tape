# The bug of integration note B. Splitter 2 holds the state of block 2: 0 good, 1 bad.
start 2 20
values 0 0 0 0
0 spawn        # Main spawns 1, a search that may go on elsewhere
1 steal 0      # worker 1 takes Main, the continuation
1 write 2 1    # Main finds block 2 bad and marks it
0 read 2       # frame 1 does not know it: 0
1 sync         # Main waits for 1; worker 1 goes idle
0 return       # 1 ends; Main resumes on worker 0
0 read 2       # Main must read its own mark, 1; under note B it reads the child's old 0
0 return
