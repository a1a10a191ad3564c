# Returns that wait (document 02, R-3): a return with a live child suspends the frame as returning; it ends with its last child.
start 3 20
values 10 20 30 40 50
0 spawn        # Main spawns 1
1 steal 0      # worker 1 takes Main
1 write 4 99
1 sync         # Main waits at its sync; worker 1 is idle
0 spawn        # 1 spawns 1.1
1 steal 0      # worker 1 takes 1
1 spawn        # 1 spawns 1.2
2 steal 1      # worker 2 takes 1
2 return       # two children of 1 live: it waits as returning, outcome 4; worker 2 is idle
2 read 4       # 1 does nothing more: refused 10
0 return       # 1.1 ends; 1.2 lives, so 1 goes on waiting
1 return       # 1.2 ends, the last child, and 1 with it; Main resumes on worker 1
1 read 4       # its own 99
1 spawn        # 2
0 steal 1      # worker 0 takes Main
1 spawn        # 2 spawns 2.1
2 steal 1      # worker 2 takes 2
0 return       # Main has a live child: it waits, and has not returned yet
2 return       # 2 has one too
1 return       # 2.1 ends, then 2, then Main
1 return       # Main has returned: refused 9
