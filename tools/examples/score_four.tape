# The score of a layout search (document 02, R-5), by four workers: what comes first in the order comes last in time.
start 4 40
values 1 2 2 2              # block 0 is bad, 1 to 3 are spare
0 spawn                     # 1
1 steal 0                   # Main
1 spawn                     # 2
2 steal 1                   # Main
2 spawn                     # 3
3 steal 2                   # Main
3 fold sum 64
3 fold min 64
3 fold affine 100 64
3 return                    # Main has live children: it waits
1 write 2 100               # 2 takes spare 2
1 spawn                     # 2.1
3 steal 1                   # 2
3 fold sum 36
3 fold min 36
3 fold affine 100 36
3 return                    # 2 has a live child: it waits
2 write 3 100               # 3 takes spare 3
2 fold sum 49
2 fold min 49
2 fold affine 100 49
2 return                    # 3 ends
1 write 3 100               # 2.1 takes spare 3 as well
1 fold sum 16
1 fold min 16
1 fold affine 100 16
1 return                    # 2.1 ends, and 2 with it
0 write 1 100               # 1 takes spare 1
0 fold sum 25
0 fold min 25
0 fold affine 100 25
0 return                    # 1 ends, and Main with it
expect reduced 190 16 1410065408 2516364964
