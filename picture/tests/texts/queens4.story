story 1
0 v1 out 3:c1 4:c1
0 v1 takes 1
0 v1 sends v2 ok 1
0 v1 sends v3 ok 1
0 v1 sends v4 ok 1
0 v2 takes 1
0 v2 sends v3 ok 1
0 v2 sends v4 ok 1
0 v3 takes 1
0 v3 sends v4 ok 1
0 v4 takes 1
1 v1>v2 ok 1
1 v2 knows v1=1
1 v2 out 1:c2 2:c4
1 v2 takes 3
1 v2 sends v3 ok 3
1 v2 sends v4 ok 3
2 v3>v4 ok 1
2 v4 knows v3=1
2 v4 out 1:c17 2:c19
2 v4 takes 3
3 v1>v4 ok 1
3 v4 knows v1=1
3 v4 out 1:c8 2:c19 4:c10
4 v2>v4 ok 1
4 v4 knows v2=1
4 v4 out 1:c8 2:c19 3:c16 4:c10
4 v4 makes n1
4 v4 sends v3 nogood 1
5 v4>v3 nogood 1
5 v3 knows v1=1
5 v3 knows v2=1
5 v3 keeps n1
5 v3 out 1:c5 2:c13 3:c7
5 v3 takes 4
5 v3 sends v4 ok 4
6 v1>v3 ok 1
7 v2>v3 ok 1
8 v2>v4 ok 3
8 v4 knows v2=3
8 v4 out 1:c8 2:c19 3:c14 4:c10
8 v4 makes n2
8 v4 sends v3 nogood 2
9 v4>v3 nogood 2
9 v3 knows v2=3
9 v3 forgets n1
9 v3 keeps n2
9 v3 out 1:c5 2:c12 3:c7 4:c13
9 v3 makes n3
9 v3 sends v2 nogood 3
10 v3>v2 nogood 3
10 v2 keeps n3
10 v2 out 1:c2 2:c4 3:n3
10 v2 takes 4
10 v2 sends v3 ok 4
10 v2 sends v4 ok 4
11 v2>v4 ok 4
11 v4 knows v2=4
11 v4 out 1:c8 2:c15 4:c10
11 v4 takes 3
12 v2>v3 ok 3
13 v3>v4 ok 4
13 v4 knows v3=4
13 v4 out 1:c8 2:c15 3:c18 4:c10
13 v4 makes n4
13 v4 sends v3 nogood 4
14 v2>v3 ok 4
14 v3 knows v2=4
14 v3 forgets n2
14 v3 out 1:c5 3:c7 4:c11
14 v3 takes 2
14 v3 sends v4 ok 2
15 v4>v3 nogood 4
15 v3 keeps n4
16 v3>v4 ok 2
16 v4 knows v3=2
16 v4 out 1:c8 2:c15 3:c19 4:c10
16 v4 makes n5
16 v4 sends v3 nogood 5
17 v4>v3 nogood 5
17 v3 keeps n5
17 v3 out 1:c5 2:n5 3:c7 4:c11
17 v3 makes n6
17 v3 sends v2 nogood 6
18 v3>v2 nogood 6
18 v2 keeps n6
18 v2 out 1:c2 2:c4 3:n3 4:n6
18 v2 makes n7
18 v2 sends v1 nogood 7
19 v2>v1 nogood 7
19 v1 keeps n7
19 v1 out 1:n7 3:c1 4:c1
19 v1 takes 2
19 v1 sends v2 ok 2
19 v1 sends v3 ok 2
19 v1 sends v4 ok 2
20 v1>v3 ok 2
20 v3 knows v1=2
20 v3 forgets n4
20 v3 forgets n5
20 v3 out 2:c5 3:c12 4:c7
20 v3 takes 1
20 v3 sends v4 ok 1
21 v1>v2 ok 2
21 v2 knows v1=2
21 v2 forgets n3
21 v2 forgets n6
21 v2 out 1:c3 2:c2 3:c4
21 v2 takes 4
21 v2 sends v3 ok 4
21 v2 sends v4 ok 4
22 v3>v4 ok 1
22 v4 knows v3=1
22 v4 out 1:c8 2:c15 4:c10
22 v4 takes 3
23 v1>v4 ok 2
23 v4 knows v1=2
23 v4 out 1:c17 2:c8 4:c14
24 v2>v4 ok 4
24 v4 knows v2=4
25 v2>v3 ok 4
25 v3 knows v2=4
end solved
