story 1
0 v1 takes 1
0 v1 sends v3 ok 1
0 v2 takes 1
0 v2 sends v3 ok 1
0 v3 takes 1
1 v1>v3 ok 1
1 v3 knows v1=1
2 v2>v3 ok 1
2 v3 knows v2=1
2 v3 out 1:c4 2:c4
2 v3 makes n1
2 v3 sends v2 nogood 1
3 v3>v2 nogood 1
3 v2 knows v1=1
3 v2 keeps n1
3 v2 out 1:n1
3 v2 takes 2
3 v2 sends v1 link
3 v2 sends v3 ok 2
4 v2>v1 link
4 v1 sends v2 ok 1
5 v2>v3 ok 2
5 v3 knows v2=2
5 v3 makes n2
5 v3 sends v2 nogood 2
6 v1>v2 ok 1
7 v3>v2 nogood 2
7 v2 keeps n2
7 v2 out 1:n1 2:n2
7 v2 makes n3
7 v2 sends v1 nogood 3
8 v2>v1 nogood 3
8 v1 keeps n3
8 v1 out 1:n3
8 v1 takes 2
8 v1 sends v2 ok 2
8 v1 sends v3 ok 2
9 v1>v2 ok 2
9 v2 knows v1=2
9 v2 forgets n1
9 v2 forgets n2
9 v2 out
9 v2 takes 2
9 v2 sends v3 ok 2
10 v1>v3 ok 2
10 v3 knows v1=2
10 v3 makes n4
10 v3 sends v2 nogood 4
11 v3>v2 nogood 4
11 v2 keeps n4
11 v2 out 2:n4
11 v2 takes 1
11 v2 sends v3 ok 1
12 v2>v3 ok 2
12 v3 knows v2=2
12 v3 makes n5
12 v3 sends v2 nogood 5
13 v3>v2 nogood 5
13 v2 refuses n5
14 v2>v3 ok 1
14 v3 knows v2=1
14 v3 makes n6
14 v3 sends v2 nogood 6
15 v3>v2 nogood 6
15 v2 keeps n6
15 v2 out 1:n6 2:n4
15 v2 makes n7
15 v2 sends v1 nogood 7
16 v2>v1 nogood 7
16 v1 keeps n7
16 v1 out 1:n3 2:n7
16 v1 makes n8
end refuted
