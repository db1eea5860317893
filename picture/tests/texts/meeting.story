story 1
0 v1 takes 9
0 v1 sends v3 ok 9
0 v1 sends v5 ok 9
0 v1 sends v6 ok 9
0 v2 takes 9
0 v2 sends v4 ok 9
0 v2 sends v5 ok 9
0 v2 sends v6 ok 9
0 v3 takes 10
0 v4 takes 9
0 v5 takes 0
0 v5 sends v6 ok 0
0 v6 takes 0
1 v2>v4 ok 9
1 v4 knows v2=9
1 v4 out 11:c2 15:c2
2 v5>v6 ok 0
2 v6 knows v5=0
2 v6 out 0:c3
2 v6 takes 1
3 v1>v3 ok 9
3 v3 knows v1=9
3 v3 out 10:c1 11:c1 14:c1
3 v3 makes n1
3 v3 sends v1 nogood 1
4 v3>v1 nogood 1
4 v1 keeps n1
4 v1 out 9:n1
4 v1 takes 10
4 v1 sends v3 ok 10
4 v1 sends v5 ok 10
4 v1 sends v6 ok 10
5 v1>v3 ok 10
5 v3 knows v1=10
5 v3 out 11:c1 14:c1
5 v3 takes 10
6 v1>v6 ok 9
6 v6 knows v1=9
7 v2>v5 ok 9
7 v5 knows v2=9
8 v1>v6 ok 10
8 v6 knows v1=10
9 v1>v5 ok 9
9 v5 knows v1=9
9 v5 out 1:c4
10 v1>v5 ok 10
10 v5 knows v1=10
11 v2>v6 ok 9
11 v6 knows v2=9
11 v6 out 0:c3 1:c5
11 v6 makes n2
11 v6 sends v5 nogood 2
12 v6>v5 nogood 2
12 v5 keeps n2
12 v5 out 0:n2 1:c4
12 v5 makes n3
12 v5 sends v2 nogood 3
13 v5>v2 nogood 3
13 v2 knows v1=10
13 v2 keeps n3
13 v2 out 9:n3
13 v2 takes 10
13 v2 sends v1 link
13 v2 sends v4 ok 10
13 v2 sends v5 ok 10
13 v2 sends v6 ok 10
14 v2>v5 ok 10
14 v5 knows v2=10
14 v5 forgets n2
14 v5 out 1:c4
14 v5 takes 0
14 v5 sends v6 ok 0
15 v2>v6 ok 10
15 v6 knows v2=10
15 v6 makes n4
15 v6 sends v5 nogood 4
16 v2>v4 ok 10
16 v4 knows v2=10
16 v4 out 9:c2 11:c2 15:c2
16 v4 makes n5
16 v4 sends v2 nogood 5
17 v4>v2 nogood 5
17 v2 keeps n5
17 v2 out 9:n3 10:n5
17 v2 takes 14
17 v2 sends v4 ok 14
17 v2 sends v5 ok 14
17 v2 sends v6 ok 14
18 v2>v5 ok 14
18 v5 knows v2=14
19 v5>v6 ok 0
19 v6 knows v5=0
19 v6 makes n6
19 v6 sends v5 nogood 6
20 v2>v6 ok 14
20 v6 knows v2=14
20 v6 out 0:c3
20 v6 takes 1
21 v2>v1 link
21 v1 sends v2 ok 10
22 v6>v5 nogood 4
22 v5 refuses n4
23 v1>v2 ok 10
24 v6>v5 nogood 6
24 v5 refuses n6
25 v2>v4 ok 14
25 v4 knows v2=14
25 v4 makes n7
25 v4 sends v2 nogood 7
26 v4>v2 nogood 7
26 v2 keeps n7
26 v2 out 9:n3 10:n5 14:n7
26 v2 takes 15
26 v2 sends v4 ok 15
26 v2 sends v5 ok 15
26 v2 sends v6 ok 15
27 v2>v5 ok 15
27 v5 knows v2=15
28 v2>v4 ok 15
28 v4 knows v2=15
28 v4 out 9:c2 11:c2
28 v4 takes 15
29 v2>v6 ok 15
29 v6 knows v2=15
end solved
