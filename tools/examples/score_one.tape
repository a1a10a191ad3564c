# The score of a layout search (document 02, R-5), by one worker: each branch before what comes after it.
start 1 40
values 1 2 2 2              # block 0 is bad, 1 to 3 are spare
0 spawn                     # 1
0 write 1 100               # 1 takes spare 1
0 fold sum 25
0 fold min 25
0 fold affine 100 25
0 return
0 spawn                     # 2
0 write 2 100               # 2 takes spare 2
0 spawn                     # 2.1
0 write 3 100               # 2.1 takes spare 3 as well
0 fold sum 16
0 fold min 16
0 fold affine 100 16
0 return
0 fold sum 36
0 fold min 36
0 fold affine 100 36
0 return
0 spawn                     # 3
0 write 3 100               # 3 takes spare 3
0 fold sum 49
0 fold min 49
0 fold affine 100 49
0 return
0 fold sum 64
0 fold min 64
0 fold affine 100 64
0 return
expect reduced 190 16 1410065408 2516364964
