# A layout search of 50 frames on four workers, for its report (document 02, R-7). Blocks 0 and 1 are bad, 2 to 7 spare.
# A branch takes a spare and writes 2 there. One with branches of its own folds their number into the sum, another what its layout
# costs into the minimum.
start 4 400
values 1 1 0 0 0 0 0 0
0 read 0
0 read 1
0 spawn         # 1
1 steal 0       # Main
0 write 2 2
1 spawn         # 2
2 steal 1       # Main
0 spawn         # 1.1
1 write 3 2
2 spawn         # 3
3 steal 0       # 1
0 write 3 2
1 spawn         # 2.1
2 write 4 2
3 spawn         # 1.2
0 spawn         # 1^3
1 write 2 2
2 spawn         # 3.1
3 write 4 2
0 write 4 2
1 fold min 52
2 write 5 2
3 spawn         # 1.2.1
0 fold min 61
1 return        # 2.1 ends
2 spawn         # 3.1.1
3 write 5 2
0 return        # 1^3 ends
1 spawn         # 2.2
2 write 6 2
3 fold min 55
0 spawn         # 1.1.2
1 write 4 2
2 fold min 51
3 return        # 1.2.1 ends
0 write 5 2
1 spawn         # 2.2.1
2 return        # 3.1.1 ends
3 spawn         # 1.2.2
0 read 5
1 write 5 2
2 spawn         # 3.1.2
3 write 6 2
0 read 6
1 fold min 49
2 write 7 2
3 fold min 57
0 fold min 58
1 return        # 2.2.1 ends
2 fold min 50
3 return        # 1.2.2 ends
0 return        # 1.1.2 ends
1 spawn         # 2^3
2 return        # 3.1.2 ends
3 spawn         # 1.2.3
0 sync
1 write 6 2
2 sync
3 write 7 2
0 fold sum 2
1 read 6
2 fold sum 2
3 fold min 66
0 return        # 1.1 ends
1 read 7
2 return        # 3.1 ends
3 return        # 1.2.3 ends
0 steal 1       # 2
1 read 0
2 spawn         # 3.2
3 fold sum 3
0 spawn         # 2.3
1 read 1
2 write 6 2
3 return        # 1.2 ends
0 write 5 2
1 read 2
2 read 6
3 spawn         # 1.3
0 spawn         # 2.3.1
1 read 3
2 read 7
3 write 5 2
0 write 6 2
1 read 4
2 fold min 48
3 read 5
0 read 6
1 fold min 47
2 return        # 3.2 ends
3 read 6
0 read 7
1 return        # 2^3 ends
2 spawn         # 3.3
3 read 7
0 fold min 44
1 spawn         # 2.2.3
2 write 7 2
3 fold min 70
0 return        # 2.3.1 ends
1 write 7 2
2 spawn         # 3.3.1
3 return        # 1.3 ends
0 spawn         # 2.3.2
1 read 7
2 write 2 2
3 sync
0 write 7 2
1 read 0
2 fold min 53
3 fold sum 3
0 fold min 63
1 fold min 52
2 return        # 3.3.1 ends
3 return        # 1 ends
0 return        # 2.3.2 ends
1 return        # 2.2.3 ends
2 spawn         # 3.3.2
3 steal 2       # Main
0 fold sum 2
1 sync
2 write 3 2
3 spawn         # 4
0 return        # 2.3 ends
1 fold sum 3
2 read 3
3 write 5 2
0 fold sum 3
1 return        # 2.2 ends
2 read 4
3 spawn         # 4.1
0 return        # 2 ends
1 steal 2       # 3
2 read 5
3 write 6 2
0 steal 3       # Main
1 fold sum 3
2 fold min 41
3 fold min 59
0 sync          # Main waits
1 return        # 3 waits as returning
2 return        # 3.3.2 ends
3 return        # 4.1 ends
2 spawn         # 3^3
3 spawn         # 4.2
0 steal 2       # 3.3
1 steal 3       # 4
2 write 5 2
3 write 7 2
0 sync          # 3.3 waits
1 spawn         # 4.3
2 fold min 46
3 spawn         # 4.2.1
0 steal 1       # 4
1 write 7 2
2 return        # 3^3 ends; 3.3 resumes
3 write 2 2
0 sync          # 4 waits
1 read 7
2 fold sum 3
3 fold min 45
0 steal 3       # 4.2
1 read 0
2 return        # 3.3, 3 end
3 return        # 4.2.1 ends
0 spawn         # 4.2.2
1 fold min 45
2 steal 0       # 4.2
0 write 3 2
1 return        # 4.3 ends
2 sync          # 4.2 waits
0 read 3
0 read 4
0 fold min 56
0 return        # 4.2.2 ends; 4.2 resumes
0 fold sum 2
0 return        # 4.2 ends; 4 resumes
0 fold sum 3
0 return        # 4 ends; Main resumes
0 read 2
0 write 1 3
0 spawn         # 5
1 steal 0       # Main
0 write 6 2
1 spawn         # 6
2 steal 1       # Main
0 spawn         # 5.1
1 write 7 2
2 spawn         # 7
3 steal 0       # 5
0 write 2 2
1 spawn         # 6.1
2 write 2 2
3 spawn         # 5.2
0 fold min 39
1 write 2 2
2 read 2
3 write 3 2
0 return        # 5.1 ends
1 spawn         # 6.1.1
2 read 3
3 spawn         # 5.2.1
0 steal 1       # 6
1 write 3 2
2 fold min 32
3 write 4 2
0 spawn         # 6.2
1 fold min 35
2 return        # 7 ends
3 read 4
0 write 5 2
1 return        # 6.1.1 ends
2 spawn         # 8
3 read 5
0 read 5
1 spawn         # 6.1.2
2 write 3 2
3 fold min 36
0 read 6
1 write 4 2
2 spawn         # 8.1
3 return        # 5.2.1 ends
0 read 7
1 read 4
2 write 4 2
3 spawn         # 5.2.2
0 fold min 34
1 read 5
2 fold min 31
3 write 5 2
0 return        # 6.2 ends
1 fold min 33
2 return        # 8.1 ends
3 read 5
0 fold sum 2
1 return        # 6.1.2 ends
2 spawn         # 8.2
3 read 6
0 return        # 6 waits as returning
1 spawn         # 6.1.3
2 write 5 2
3 read 7
0 steal 2       # Main
1 write 6 2
2 read 5
3 read 0
0 fold sum 8
1 fold min 37
2 read 6
3 read 1
0 return        # Main waits as returning
1 return        # 6.1.3 ends
2 fold min 30
3 fold min 38
0 steal 3       # 5
1 sync
2 return        # 8.2 ends
3 return        # 5.2.2 ends
0 spawn         # 5.3
1 fold sum 3
2 fold sum 2
3 fold sum 2
0 write 7 2
1 return        # 6.1, 6 end
2 return        # 8 ends
3 return        # 5.2 ends
0 fold min 40
1 steal 0       # 5
0 return        # 5.3 ends
1 sync
1 fold sum 3
1 return        # 5, Main end
expect reduced 49 30 1 0
