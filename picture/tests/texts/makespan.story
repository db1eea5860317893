story 1
0 v1 takes 0
0 v1 sends v4 ok 0
0 v1 sends v8 ok 0
0 v1 sends v9 ok 0
0 v1 sends v10 ok 0
0 v1 sends v11 ok 0
0 v2 takes 0
0 v2 sends v5 ok 0
0 v2 sends v8 ok 0
0 v2 sends v9 ok 0
0 v2 sends v12 ok 0
0 v2 sends v13 ok 0
0 v3 takes 0
0 v3 sends v6 ok 0
0 v3 sends v10 ok 0
0 v3 sends v11 ok 0
0 v3 sends v12 ok 0
0 v3 sends v13 ok 0
0 v4 takes 0
0 v4 sends v7 ok 0
0 v4 sends v14 ok 0
0 v4 sends v15 ok 0
0 v4 sends v16 ok 0
0 v4 sends v17 ok 0
0 v5 takes 0
0 v5 sends v7 ok 0
0 v5 sends v14 ok 0
0 v5 sends v15 ok 0
0 v5 sends v18 ok 0
0 v5 sends v19 ok 0
0 v6 takes 0
0 v6 sends v7 ok 0
0 v6 sends v16 ok 0
0 v6 sends v17 ok 0
0 v6 sends v18 ok 0
0 v6 sends v19 ok 0
0 v7 takes 0
0 v8 takes 0
0 v8 sends v9 ok 0
0 v9 takes 0
0 v10 takes 0
0 v10 sends v11 ok 0
0 v11 takes 0
0 v12 takes 0
0 v12 sends v13 ok 0
0 v13 takes 0
0 v14 takes 0
0 v14 sends v15 ok 0
0 v15 takes 0
0 v16 takes 0
0 v16 sends v17 ok 0
0 v17 takes 0
0 v18 takes 0
0 v18 sends v19 ok 0
0 v19 takes 0
1 v4>v17 ok 0
1 v17 knows v4=0
2 v4>v15 ok 0
2 v15 knows v4=0
3 v1>v8 ok 0
3 v8 knows v1=0
4 v3>v12 ok 0
4 v12 knows v3=0
5 v10>v11 ok 0
5 v11 knows v10=0
5 v11 out 0:c8
5 v11 takes 1
6 v6>v19 ok 0
6 v19 knows v6=0
7 v1>v4 ok 0
7 v4 knows v1=0
7 v4 out 0:c1 1:c1
7 v4 takes 2
7 v4 sends v7 ok 2
7 v4 sends v14 ok 2
7 v4 sends v15 ok 2
7 v4 sends v16 ok 2
7 v4 sends v17 ok 2
8 v6>v17 ok 0
8 v17 knows v6=0
8 v17 out 1:c22
9 v1>v11 ok 0
9 v11 knows v1=0
10 v18>v19 ok 0
10 v19 knows v18=0
10 v19 out 0:c12
10 v19 takes 1
11 v6>v7 ok 0
11 v7 knows v6=0
11 v7 out 0:c6 1:c6
11 v7 takes 2
12 v4>v14 ok 0
12 v14 knows v4=0
13 v2>v5 ok 0
13 v5 knows v2=0
13 v5 out 0:c3
13 v5 takes 1
13 v5 sends v7 ok 1
13 v5 sends v14 ok 1
13 v5 sends v15 ok 1
13 v5 sends v18 ok 1
13 v5 sends v19 ok 1
14 v3>v6 ok 0
14 v6 knows v3=0
14 v6 out 0:c5 1:c5 2:c5
14 v6 takes 3
14 v6 sends v7 ok 3
14 v6 sends v16 ok 3
14 v6 sends v17 ok 3
14 v6 sends v18 ok 3
14 v6 sends v19 ok 3
15 v3>v10 ok 0
15 v10 knows v3=0
16 v12>v13 ok 0
16 v13 knows v12=0
16 v13 out 0:c9
16 v13 takes 1
17 v4>v14 ok 2
17 v14 knows v4=2
18 v5>v14 ok 0
18 v14 knows v5=0
18 v14 out 1:c19
19 v4>v7 ok 0
19 v7 knows v4=0
19 v7 out 0:c2 1:c6
20 v14>v15 ok 0
20 v15 knows v14=0
20 v15 out 0:c10
20 v15 takes 1
21 v5>v18 ok 0
21 v18 knows v5=0
22 v6>v18 ok 0
22 v18 knows v6=0
22 v18 out 1:c23
23 v2>v9 ok 0
23 v9 knows v2=0
24 v6>v18 ok 3
24 v18 knows v6=3
24 v18 out 0:c23
24 v18 takes 1
24 v18 sends v19 ok 1
25 v5>v7 ok 0
25 v7 knows v5=0
25 v7 out 0:c2 1:c4 2:c4
25 v7 takes 3
26 v5>v18 ok 1
26 v18 knows v5=1
26 v18 out 1:c23
26 v18 takes 0
26 v18 sends v19 ok 0
27 v4>v7 ok 2
27 v7 knows v4=2
27 v7 out 0:c2 1:c2 2:c2
28 v4>v15 ok 2
28 v15 knows v4=2
29 v3>v13 ok 0
29 v13 knows v3=0
30 v5>v19 ok 0
30 v19 knows v5=0
30 v19 out 0:c12 1:c24
30 v19 makes n1
30 v19 sends v18 nogood 1
31 v6>v19 ok 3
31 v19 knows v6=3
31 v19 makes n2
31 v19 sends v18 nogood 2
32 v8>v9 ok 0
32 v9 knows v8=0
32 v9 out 0:c7
32 v9 takes 1
33 v6>v16 ok 0
33 v16 knows v6=0
34 v5>v7 ok 1
34 v7 knows v5=1
34 v7 out 0:c2 1:c2 2:c2 3:c4
34 v7 takes 4
35 v19>v18 nogood 1
35 v18 refuses n1
36 v2>v13 ok 0
36 v13 knows v2=0
36 v13 out 0:c9 1:c18
36 v13 makes n3
36 v13 sends v12 nogood 3
37 v18>v19 ok 1
37 v19 knows v18=1
37 v19 out 1:c24
37 v19 takes 0
38 v2>v8 ok 0
38 v8 knows v2=0
38 v8 out 1:c13
39 v6>v16 ok 3
39 v16 knows v6=3
40 v1>v10 ok 0
40 v10 knows v1=0
40 v10 out 1:c15
41 v6>v17 ok 3
41 v17 knows v6=3
42 v18>v19 ok 0
42 v19 knows v18=0
42 v19 out 0:c12 1:c24
42 v19 makes n4
42 v19 sends v18 nogood 4
43 v1>v9 ok 0
43 v9 knows v1=0
43 v9 out 0:c7 1:c14
43 v9 makes n5
43 v9 sends v8 nogood 5
44 v3>v11 ok 0
44 v11 knows v3=0
44 v11 out 0:c8 1:c16
44 v11 makes n6
44 v11 sends v10 nogood 6
45 v2>v12 ok 0
45 v12 knows v2=0
45 v12 out 1:c17
46 v16>v17 ok 0
46 v17 knows v16=0
46 v17 out 0:c11 1:c22
46 v17 makes n7
46 v17 sends v16 nogood 7
47 v5>v19 ok 1
47 v19 knows v5=1
47 v19 makes n8
47 v19 sends v18 nogood 8
48 v6>v7 ok 3
48 v7 knows v6=3
48 v7 out 0:c2 1:c2 2:c2 3:c4 4:c6
48 v7 takes 5
49 v9>v8 nogood 5
49 v8 keeps n5
49 v8 out 0:n5 1:c13
49 v8 makes n9
49 v8 sends v2 nogood 9
50 v11>v10 nogood 6
50 v10 keeps n6
50 v10 out 0:n6 1:c15
50 v10 makes n10
50 v10 sends v3 nogood 10
51 v8>v2 nogood 9
51 v2 knows v1=0
51 v2 keeps n9
51 v2 out 0:n9
51 v2 takes 1
51 v2 sends v1 link
51 v2 sends v5 ok 1
51 v2 sends v8 ok 1
51 v2 sends v9 ok 1
51 v2 sends v12 ok 1
51 v2 sends v13 ok 1
52 v5>v15 ok 0
52 v15 knows v5=0
52 v15 out 0:c10 1:c20
52 v15 makes n11
52 v15 sends v14 nogood 11
53 v5>v15 ok 1
53 v15 knows v5=1
53 v15 makes n12
53 v15 sends v14 nogood 12
54 v4>v17 ok 2
54 v17 knows v4=2
54 v17 makes n13
54 v17 sends v16 nogood 13
55 v19>v18 nogood 2
55 v18 refuses n2
56 v2>v9 ok 1
56 v9 knows v2=1
56 v9 makes n14
56 v9 sends v8 nogood 14
57 v19>v18 nogood 4
57 v18 refuses n4
58 v13>v12 nogood 3
58 v12 keeps n3
58 v12 out 0:n3 1:c17
58 v12 makes n15
58 v12 sends v3 nogood 15
59 v19>v18 nogood 8
59 v18 keeps n8
59 v18 out 0:n8 1:c23
59 v18 makes n16
59 v18 sends v6 nogood 16
60 v2>v8 ok 1
60 v8 knows v2=1
60 v8 forgets n5
60 v8 out 1:c13
60 v8 takes 0
60 v8 sends v9 ok 0
61 v15>v14 nogood 11
61 v14 keeps n11
61 v14 out 0:n11 1:c19
61 v14 makes n17
61 v14 sends v5 nogood 17
62 v17>v16 nogood 7
62 v16 knows v4=0
62 v16 keeps n7
62 v16 out 0:c21
62 v16 takes 1
62 v16 sends v17 ok 1
63 v18>v6 nogood 16
63 v6 knows v5=1
63 v6 keeps n16
63 v6 out 0:c5 1:c5 2:c5 3:n16
63 v6 takes 4
63 v6 sends v5 link
63 v6 sends v7 ok 4
63 v6 sends v16 ok 4
63 v6 sends v17 ok 4
63 v6 sends v18 ok 4
63 v6 sends v19 ok 4
64 v9>v8 nogood 14
64 v8 keeps n14
64 v8 out 0:n14 1:c13
64 v8 makes n18
64 v8 sends v2 nogood 18
65 v2>v13 ok 1
65 v13 knows v2=1
65 v13 makes n19
65 v13 sends v12 nogood 19
66 v8>v9 ok 0
66 v9 knows v8=0
66 v9 makes n20
66 v9 sends v8 nogood 20
67 v6>v16 ok 4
67 v16 knows v6=4
67 v16 forgets n7
68 v13>v12 nogood 19
68 v12 knows v2=1
68 v12 forgets n3
68 v12 keeps n19
68 v12 out 0:n19 1:c17
68 v12 makes n21
68 v12 sends v3 nogood 21
69 v4>v16 ok 0
70 v12>v3 nogood 15
70 v3 knows v2=0
70 v3 keeps n15
70 v3 out 0:n15
70 v3 takes 1
70 v3 sends v2 link
70 v3 sends v6 ok 1
70 v3 sends v10 ok 1
70 v3 sends v11 ok 1
70 v3 sends v12 ok 1
70 v3 sends v13 ok 1
71 v2>v5 ok 1
71 v5 knows v2=1
71 v5 out 0:c3 1:c3
71 v5 takes 2
71 v5 sends v7 ok 2
71 v5 sends v14 ok 2
71 v5 sends v15 ok 2
71 v5 sends v18 ok 2
71 v5 sends v19 ok 2
72 v3>v11 ok 1
72 v11 knows v3=1
72 v11 makes n22
72 v11 sends v10 nogood 22
73 v6>v7 ok 4
73 v7 knows v6=4
73 v7 out 0:c2 1:c2 2:c2 3:c4 4:c6 5:c6
73 v7 takes 6
74 v3>v2 link
74 v2 sends v3 ok 1
75 v15>v14 nogood 12
75 v14 knows v5=1
75 v14 forgets n11
75 v14 keeps n12
75 v14 out 0:n12 1:c19
75 v14 makes n23
75 v14 sends v5 nogood 23
76 v5>v14 ok 1
77 v17>v16 nogood 13
77 v16 knows v4=2
77 v16 refuses n13
78 v5>v14 ok 2
78 v14 knows v5=2
78 v14 forgets n12
78 v14 out 1:c19
78 v14 takes 0
78 v14 sends v15 ok 0
79 v8>v2 nogood 18
79 v2 keeps n18
79 v2 out 0:n9 1:n18
79 v2 takes 2
79 v2 sends v3 ok 2
79 v2 sends v5 ok 2
79 v2 sends v8 ok 2
79 v2 sends v9 ok 2
79 v2 sends v12 ok 2
79 v2 sends v13 ok 2
80 v2>v13 ok 2
80 v13 knows v2=2
80 v13 makes n24
80 v13 sends v12 nogood 24
81 v14>v15 ok 0
81 v15 knows v14=0
81 v15 makes n25
81 v15 sends v14 nogood 25
82 v9>v8 nogood 20
82 v8 refuses n20
83 v3>v10 ok 1
83 v10 knows v3=1
83 v10 forgets n6
83 v10 out 1:c15
83 v10 takes 0
83 v10 sends v11 ok 0
84 v15>v14 nogood 25
84 v14 refuses n25
85 v5>v15 ok 2
85 v15 knows v5=2
85 v15 makes n26
85 v15 sends v14 nogood 26
86 v12>v3 nogood 21
86 v3 knows v2=1
86 v3 forgets n15
86 v3 keeps n21
86 v3 out 0:n21
87 v14>v5 nogood 17
87 v5 knows v4=2
87 v5 keeps n17
87 v5 sends v4 link
88 v5>v4 link
88 v4 sends v5 ok 2
89 v11>v10 nogood 22
89 v10 keeps n22
89 v10 out 0:n22 1:c15
89 v10 makes n27
89 v10 sends v3 nogood 27
90 v6>v19 ok 4
90 v19 knows v6=4
90 v19 makes n28
90 v19 sends v18 nogood 28
91 v4>v16 ok 2
92 v5>v19 ok 2
92 v19 knows v5=2
92 v19 makes n29
92 v19 sends v18 nogood 29
93 v2>v3 ok 1
94 v19>v18 nogood 28
94 v18 knows v6=4
94 v18 forgets n8
94 v18 keeps n28
94 v18 out 0:c23
94 v18 takes 1
94 v18 sends v19 ok 1
95 v3>v6 ok 1
95 v6 knows v3=1
95 v6 out 0:c5 1:c5 2:c5 3:c5
96 v10>v3 nogood 10
96 v3 knows v1=0
96 v3 refuses n10
96 v3 sends v1 link
97 v10>v3 nogood 27
97 v3 keeps n27
97 v3 out 0:n21 1:n27
97 v3 takes 2
97 v3 sends v6 ok 2
97 v3 sends v10 ok 2
97 v3 sends v11 ok 2
97 v3 sends v12 ok 2
97 v3 sends v13 ok 2
98 v3>v12 ok 1
98 v12 knows v3=1
98 v12 forgets n19
98 v12 out 1:c17
98 v12 takes 0
98 v12 sends v13 ok 0
99 v3>v12 ok 2
99 v12 knows v3=2
99 v12 out 0:c17
99 v12 takes 1
99 v12 sends v13 ok 1
100 v6>v5 link
100 v5 sends v6 ok 2
101 v2>v3 ok 2
101 v3 knows v2=2
101 v3 forgets n21
101 v3 out 1:n27
102 v2>v1 link
102 v1 sends v2 ok 0
103 v5>v6 ok 2
103 v6 knows v5=2
103 v6 forgets n16
104 v2>v12 ok 1
105 v16>v17 ok 1
105 v17 knows v16=1
105 v17 out 1:c22
105 v17 takes 0
106 v3>v10 ok 2
106 v10 knows v3=2
106 v10 forgets n22
106 v10 out 0:c15
106 v10 takes 1
106 v10 sends v11 ok 1
107 v3>v11 ok 2
107 v11 knows v3=2
107 v11 makes n30
107 v11 sends v10 nogood 30
108 v6>v17 ok 4
108 v17 knows v6=4
109 v3>v13 ok 1
109 v13 knows v3=1
109 v13 makes n31
109 v13 sends v12 nogood 31
110 v2>v5 ok 2
110 v5 knows v2=2
110 v5 out 0:c3 1:c3 2:c3
110 v5 takes 3
110 v5 sends v6 ok 3
110 v5 sends v7 ok 3
110 v5 sends v14 ok 3
110 v5 sends v15 ok 3
110 v5 sends v18 ok 3
110 v5 sends v19 ok 3
111 v11>v10 nogood 30
111 v10 keeps n30
112 v1>v2 ok 0
113 v14>v5 nogood 23
113 v5 keeps n23
114 v5>v14 ok 3
114 v14 knows v5=3
114 v14 out 0:c19
114 v14 takes 1
114 v14 sends v15 ok 1
115 v10>v11 ok 0
115 v11 knows v10=0
115 v11 makes n32
115 v11 sends v10 nogood 32
116 v2>v12 ok 2
116 v12 knows v2=2
116 v12 out 1:c17
116 v12 takes 0
116 v12 sends v13 ok 0
117 v3>v6 ok 2
117 v6 knows v3=2
117 v6 out 0:c5 1:c5 2:c5 3:c5 4:c5
117 v6 takes 5
117 v6 sends v7 ok 5
117 v6 sends v16 ok 5
117 v6 sends v17 ok 5
117 v6 sends v18 ok 5
117 v6 sends v19 ok 5
118 v6>v19 ok 5
118 v19 knows v6=5
118 v19 makes n33
118 v19 sends v18 nogood 33
119 v6>v17 ok 5
119 v17 knows v6=5
120 v6>v16 ok 5
120 v16 knows v6=5
121 v5>v7 ok 2
121 v7 knows v5=2
121 v7 out 0:c2 1:c2 2:c2 3:c4 4:c4 5:c6
122 v15>v14 nogood 26
122 v14 refuses n26
123 v11>v10 nogood 32
123 v10 refuses n32
124 v19>v18 nogood 29
124 v18 knows v5=2
124 v18 forgets n28
124 v18 keeps n29
124 v18 out 0:n29 1:c23
124 v18 makes n34
124 v18 sends v6 nogood 34
125 v3>v1 link
125 v1 sends v3 ok 0
126 v5>v6 ok 3
126 v6 knows v5=3
127 v5>v15 ok 3
127 v15 knows v5=3
127 v15 makes n35
127 v15 sends v14 nogood 35
128 v5>v19 ok 3
128 v19 knows v5=3
128 v19 makes n36
128 v19 sends v18 nogood 36
129 v3>v13 ok 2
129 v13 knows v3=2
129 v13 makes n37
129 v13 sends v12 nogood 37
130 v14>v15 ok 1
130 v15 knows v14=1
130 v15 out 1:c20
130 v15 takes 0
131 v10>v11 ok 1
131 v11 knows v10=1
131 v11 out 1:c16
131 v11 takes 0
132 v4>v5 ok 2
133 v1>v3 ok 0
134 v5>v18 ok 2
135 v19>v18 nogood 33
135 v18 knows v6=5
135 v18 forgets n29
135 v18 keeps n33
135 v18 out 0:c23
135 v18 takes 1
135 v18 sends v19 ok 1
136 v2>v9 ok 2
136 v9 knows v2=2
136 v9 makes n38
136 v9 sends v8 nogood 38
137 v2>v8 ok 2
137 v8 knows v2=2
137 v8 forgets n14
137 v8 out 0:c13
137 v8 takes 1
137 v8 sends v9 ok 1
138 v5>v7 ok 3
138 v7 knows v5=3
138 v7 out 0:c2 1:c2 2:c2 3:c4 4:c4 5:c4
139 v18>v6 nogood 34
139 v6 refuses n34
140 v9>v8 nogood 38
140 v8 keeps n38
141 v12>v13 ok 0
141 v13 knows v12=0
141 v13 makes n39
141 v13 sends v12 nogood 39
142 v19>v18 nogood 36
142 v18 knows v5=3
142 v18 forgets n33
142 v18 keeps n36
142 v18 out 0:n36 1:c23
142 v18 makes n40
142 v18 sends v6 nogood 40
143 v13>v12 nogood 24
143 v12 refuses n24
144 v13>v12 nogood 31
144 v12 refuses n31
145 v13>v12 nogood 37
145 v12 keeps n37
145 v12 out 0:n37 1:c17
145 v12 makes n41
145 v12 sends v3 nogood 41
146 v12>v13 ok 1
146 v13 knows v12=1
146 v13 out 1:c18
146 v13 takes 0
147 v18>v6 nogood 40
147 v6 keeps n40
147 v6 out 0:c5 1:c5 2:c5 3:c5 4:c5 5:n40
147 v6 takes 6
147 v6 sends v7 ok 6
147 v6 sends v16 ok 6
147 v6 sends v17 ok 6
147 v6 sends v18 ok 6
147 v6 sends v19 ok 6
148 v13>v12 nogood 39
148 v12 refuses n39
149 v12>v13 ok 0
149 v13 knows v12=0
149 v13 out 0:c9 1:c18
149 v13 makes n42
149 v13 sends v12 nogood 42
150 v8>v9 ok 1
150 v9 knows v8=1
150 v9 out 1:c14
150 v9 takes 0
151 v15>v14 nogood 35
151 v14 keeps n35
152 v13>v12 nogood 42
152 v12 refuses n42
153 v6>v16 ok 6
153 v16 knows v6=6
154 v5>v18 ok 3
155 v18>v19 ok 1
155 v19 knows v18=1
155 v19 out 1:c24
155 v19 takes 0
156 v6>v17 ok 6
156 v17 knows v6=6
157 v6>v19 ok 6
157 v19 knows v6=6
158 v12>v3 nogood 41
158 v3 keeps n41
158 v3 out 1:n27 2:n41
158 v3 takes 0
158 v3 sends v6 ok 0
158 v3 sends v10 ok 0
158 v3 sends v11 ok 0
158 v3 sends v12 ok 0
158 v3 sends v13 ok 0
159 v3>v12 ok 0
159 v12 knows v3=0
159 v12 forgets n37
159 v12 out 1:c17
159 v12 takes 0
159 v12 sends v13 ok 0
160 v3>v13 ok 0
160 v13 knows v3=0
160 v13 makes n43
160 v13 sends v12 nogood 43
161 v3>v11 ok 0
161 v11 knows v3=0
162 v3>v6 ok 0
162 v6 knows v3=0
162 v6 out 0:c5 1:c5 2:c5 5:n40
163 v3>v10 ok 0
163 v10 knows v3=0
163 v10 forgets n30
163 v10 out 1:c15
163 v10 takes 0
163 v10 sends v11 ok 0
164 v12>v13 ok 0
164 v13 knows v12=0
164 v13 makes n44
164 v13 sends v12 nogood 44
165 v6>v18 ok 4
166 v6>v7 ok 5
166 v7 knows v6=5
166 v7 out 0:c2 1:c2 2:c2 3:c4 4:c4 5:c4 6:c6
166 v7 takes 7
167 v13>v12 nogood 43
167 v12 keeps n43
167 v12 out 0:n43 1:c17
167 v12 makes n45
167 v12 sends v3 nogood 45
168 v12>v3 nogood 45
168 v3 keeps n45
168 v3 out 0:n45 1:n27 2:n41
168 v3 takes 3
168 v3 sends v6 ok 3
168 v3 sends v10 ok 3
168 v3 sends v11 ok 3
168 v3 sends v12 ok 3
168 v3 sends v13 ok 3
169 v10>v11 ok 0
169 v11 knows v10=0
169 v11 out 0:c8 1:c16
169 v11 makes n46
169 v11 sends v10 nogood 46
170 v3>v11 ok 3
170 v11 knows v3=3
170 v11 makes n47
170 v11 sends v10 nogood 47
171 v13>v12 nogood 44
171 v12 refuses n44
172 v11>v10 nogood 46
172 v10 keeps n46
172 v10 out 0:n46 1:c15
172 v10 makes n48
172 v10 sends v3 nogood 48
173 v3>v13 ok 3
173 v13 knows v3=3
173 v13 makes n49
173 v13 sends v12 nogood 49
174 v6>v18 ok 5
175 v3>v10 ok 3
175 v10 knows v3=3
175 v10 forgets n46
175 v10 out 0:c15
175 v10 takes 1
175 v10 sends v11 ok 1
176 v3>v12 ok 3
176 v12 knows v3=3
176 v12 forgets n43
176 v12 out 0:c17
176 v12 takes 1
176 v12 sends v13 ok 1
177 v3>v6 ok 3
177 v6 knows v3=3
177 v6 out 0:c5 1:c5 2:c5 3:c5 4:c5 5:c5
178 v18>v19 ok 1
178 v19 knows v18=1
179 v6>v18 ok 6
179 v18 knows v6=6
179 v18 forgets n36
179 v18 out 0:c23
179 v18 takes 1
179 v18 sends v19 ok 1
180 v12>v13 ok 1
180 v13 knows v12=1
180 v13 out 1:c18
180 v13 takes 0
181 v6>v7 ok 6
181 v7 knows v6=6
181 v7 out 0:c2 1:c2 2:c2 3:c4 4:c4 5:c4 6:c6 7:c6
181 v7 takes 8
182 v10>v3 nogood 48
182 v3 refuses n48
183 v11>v10 nogood 47
183 v10 keeps n47
184 v18>v19 ok 1
184 v19 knows v18=1
185 v10>v11 ok 1
185 v11 knows v10=1
185 v11 out 1:c16
185 v11 takes 0
186 v13>v12 nogood 49
186 v12 keeps n49
end solved
