# Document 01's example, with the answers that it prints: 2 workers, 5 splitters, 20 nodes.
start 2 20
values 10 20 30 40 50
0 spawn        expect 101 1     # Main spawns 1
1 steal 0      expect 103 0     # worker 1 takes Main, the continuation
1 write 4 99   expect 106 5
0 read 4       expect 105 50    # the child still reads 50
1 sync         expect 104 1     # Main waits for the child
1 read 4       expect 10 0      # worker 1 is idle: refused 10
0 return       expect 102 2     # the child ends, Main resumes on worker 0
0 read 4       expect 105 99    # Main reads its own 99
0 return       expect 102 3
expect free 20
expect reduced 0 4294967295 1 0
