# What a write takes (document 02, R-2): new nodes only where another frame has the old ones too.
start 2 19
values 10 20 30 40 50
0 write 4 51   # Main alone has its tree: in place
0 spawn        # Main and 1 share all 11 nodes
1 steal 0      # worker 1 takes Main
1 write 4 52   # Main's path to 4 is shared from the root on: 4 new nodes
1 write 4 53   # now it is Main's alone
0 write 4 54   # and the old one is 1's alone
0 write 0 11   # the root is 1's alone; the rest of the path to 0 is shared: 3 new nodes
1 write 2 31   # Main shares the last 2 nodes of its path to 2, and 1 node is free: refused 16
0 return       # 1 ends, its own nodes are free, and all that Main has is Main's alone
1 write 2 31
1 return
