story 1
0 v1 takes 0
0 v1 sends v7 ok 0
0 v2 takes 0
0 v2 sends v9 ok 0
0 v2 sends v13 ok 0
0 v3 takes 0
0 v3 sends v11 ok 0
0 v3 sends v15 ok 0
0 v4 takes 0
0 v4 sends v17 ok 0
0 v4 sends v21 ok 0
0 v5 takes 0
0 v5 sends v19 ok 0
0 v5 sends v23 ok 0
0 v6 takes 0
0 v6 sends v25 ok 0
0 v7 takes 0
0 v7 sends v8 ok 0
0 v8 takes 0
0 v8 sends v12 ok 0
0 v9 takes 0
0 v9 sends v10 ok 0
0 v10 takes 0
0 v10 sends v12 ok 0
0 v11 takes 0
0 v11 sends v12 ok 0
0 v12 takes 0
0 v13 takes 0
0 v13 sends v14 ok 0
0 v14 takes 0
0 v14 sends v20 ok 0
0 v15 takes 0
0 v15 sends v16 ok 0
0 v16 takes 0
0 v16 sends v20 ok 0
0 v17 takes 0
0 v17 sends v18 ok 0
0 v18 takes 0
0 v18 sends v20 ok 0
0 v19 takes 0
0 v19 sends v20 ok 0
0 v20 takes 0
0 v21 takes 0
0 v21 sends v22 ok 0
0 v22 takes 0
0 v22 sends v26 ok 0
0 v23 takes 0
0 v23 sends v24 ok 0
0 v24 takes 0
0 v24 sends v26 ok 0
0 v25 takes 0
0 v25 sends v26 ok 0
0 v26 takes 0
1 v2>v9 ok 0
1 v9 knows v2=0
1 v9 out 1:c6
2 v11>v12 ok 0
2 v12 knows v11=0
2 v12 out 1:c9
3 v1>v7 ok 0
3 v7 knows v1=0
3 v7 out 1:c4
4 v5>v23 ok 0
4 v23 knows v5=0
4 v23 out 1:c20
5 v4>v17 ok 0
5 v17 knows v4=0
5 v17 out 1:c14
6 v14>v20 ok 0
6 v20 knows v14=0
7 v10>v12 ok 0
7 v12 knows v10=0
8 v7>v8 ok 0
8 v8 knows v7=0
8 v8 out 1:c5
9 v5>v19 ok 0
9 v19 knows v5=0
9 v19 out 1:c16
10 v3>v15 ok 0
10 v15 knows v3=0
10 v15 out 1:c12
11 v9>v10 ok 0
11 v10 knows v9=0
11 v10 out 1:c7
12 v22>v26 ok 0
12 v26 knows v22=0
13 v13>v14 ok 0
13 v14 knows v13=0
13 v14 out 1:c11
14 v21>v22 ok 0
14 v22 knows v21=0
14 v22 out 1:c19
15 v4>v21 ok 0
15 v21 knows v4=0
15 v21 out 1:c18
16 v23>v24 ok 0
16 v24 knows v23=0
16 v24 out 1:c21
17 v15>v16 ok 0
17 v16 knows v15=0
17 v16 out 1:c13
18 v24>v26 ok 0
18 v26 knows v24=0
18 v26 out 0:c3 1:c3
18 v26 makes n1
18 v26 sends v24 nogood 1
19 v8>v12 ok 0
19 v12 knows v8=0
19 v12 out 0:c1 1:c1
19 v12 makes n2
19 v12 sends v10 nogood 2
20 v25>v26 ok 0
20 v26 knows v25=0
20 v26 makes n3
20 v26 sends v24 nogood 3
21 v12>v10 nogood 2
21 v10 knows v8=0
21 v10 keeps n2
21 v10 out 0:n2 1:c7
21 v10 makes n4
21 v10 sends v8 link
21 v10 sends v9 nogood 4
22 v2>v13 ok 0
22 v13 knows v2=0
22 v13 out 1:c10
23 v18>v20 ok 0
23 v20 knows v18=0
24 v26>v24 nogood 1
24 v24 knows v22=0
24 v24 keeps n1
24 v24 out 0:n1 1:c21
24 v24 makes n5
24 v24 sends v22 link
24 v24 sends v23 nogood 5
25 v19>v20 ok 0
25 v20 knows v19=0
25 v20 out 1:c17
26 v10>v9 nogood 4
26 v9 knows v8=0
26 v9 keeps n4
26 v9 out 0:n4 1:c6
26 v9 makes n6
26 v9 sends v8 link
26 v9 sends v8 nogood 6
27 v6>v25 ok 0
27 v25 knows v6=0
27 v25 out 1:c22
28 v10>v8 link
28 v8 sends v10 ok 0
29 v24>v23 nogood 5
29 v23 knows v22=0
29 v23 keeps n5
29 v23 out 0:n5 1:c20
29 v23 makes n7
29 v23 sends v22 link
29 v23 sends v22 nogood 7
30 v9>v8 link
30 v8 sends v9 ok 0
31 v3>v11 ok 0
31 v11 knows v3=0
31 v11 out 1:c8
32 v24>v22 link
32 v22 sends v24 ok 0
33 v22>v24 ok 0
34 v8>v10 ok 0
35 v8>v9 ok 0
36 v16>v20 ok 0
36 v20 knows v16=0
36 v20 out 0:c2 1:c2
36 v20 makes n8
36 v20 sends v18 nogood 8
37 v23>v22 link
37 v22 sends v23 ok 0
38 v20>v18 nogood 8
38 v18 knows v14=0
38 v18 knows v16=0
38 v18 keeps n8
38 v18 out 0:n8
38 v18 takes 1
38 v18 sends v14 link
38 v18 sends v16 link
38 v18 sends v20 ok 1
39 v18>v14 link
39 v14 sends v18 ok 0
40 v18>v20 ok 1
40 v20 knows v18=1
40 v20 out 0:c2 1:c17
40 v20 makes n9
40 v20 sends v19 nogood 9
41 v22>v23 ok 0
42 v26>v24 nogood 3
42 v24 refuses n3
43 v9>v8 nogood 6
43 v8 knows v2=0
43 v8 keeps n6
43 v8 out 0:n6 1:c5
43 v8 makes n10
43 v8 sends v2 link
43 v8 sends v7 nogood 10
44 v20>v19 nogood 9
44 v19 knows v14=0
44 v19 knows v16=0
44 v19 knows v18=1
44 v19 keeps n9
44 v19 out 0:n9 1:c16
44 v19 makes n11
44 v19 sends v14 link
44 v19 sends v16 link
44 v19 sends v18 link
44 v19 sends v18 nogood 11
45 v8>v2 link
45 v2 sends v8 ok 0
46 v19>v16 link
46 v16 sends v19 ok 0
47 v19>v18 link
47 v18 sends v19 ok 1
48 v17>v18 ok 0
48 v18 knows v17=0
48 v18 out 0:n8 1:c15
48 v18 makes n12
48 v18 sends v17 nogood 12
49 v18>v19 ok 1
50 v18>v17 nogood 12
50 v17 knows v14=0
50 v17 knows v16=0
50 v17 keeps n12
50 v17 out 0:n12 1:c14
50 v17 makes n13
50 v17 sends v14 link
50 v17 sends v16 link
50 v17 sends v16 nogood 13
51 v18>v16 link
51 v16 sends v18 ok 0
52 v17>v14 link
52 v14 sends v17 ok 0
53 v16>v18 ok 0
54 v8>v7 nogood 10
54 v7 knows v2=0
54 v7 keeps n10
54 v7 out 0:n10 1:c4
54 v7 makes n14
54 v7 sends v2 link
54 v7 sends v2 nogood 14
55 v7>v2 link
55 v2 sends v7 ok 0
56 v23>v22 nogood 7
56 v22 knows v5=0
56 v22 keeps n7
56 v22 out 0:n7 1:c19
56 v22 makes n15
56 v22 sends v5 link
56 v22 sends v21 nogood 15
57 v22>v21 nogood 15
57 v21 knows v5=0
57 v21 keeps n15
57 v21 out 0:n15 1:c18
57 v21 makes n16
57 v21 sends v5 link
57 v21 sends v5 nogood 16
58 v2>v8 ok 0
59 v17>v16 link
59 v16 sends v17 ok 0
60 v19>v18 nogood 11
60 v18 knows v5=0
60 v18 keeps n11
60 v18 makes n17
60 v18 sends v5 link
60 v18 sends v17 nogood 17
61 v16>v19 ok 0
62 v22>v5 link
62 v5 sends v22 ok 0
63 v16>v17 ok 0
64 v14>v17 ok 0
65 v14>v18 ok 0
66 v18>v5 link
66 v5 sends v18 ok 0
67 v7>v2 nogood 14
67 v2 knows v1=0
67 v2 keeps n14
67 v2 out 0:n14
67 v2 takes 1
67 v2 sends v1 link
67 v2 sends v7 ok 1
67 v2 sends v8 ok 1
67 v2 sends v9 ok 1
67 v2 sends v13 ok 1
68 v5>v18 ok 0
69 v5>v22 ok 0
70 v2>v13 ok 1
70 v13 knows v2=1
71 v2>v7 ok 0
72 v2>v1 link
72 v1 sends v2 ok 0
73 v2>v9 ok 1
73 v9 knows v2=1
73 v9 out 0:c6
73 v9 takes 1
73 v9 sends v10 ok 1
74 v19>v14 link
74 v14 sends v19 ok 0
75 v2>v7 ok 1
75 v7 knows v2=1
75 v7 forgets n10
75 v7 out 1:c4
75 v7 takes 0
75 v7 sends v8 ok 0
76 v18>v17 nogood 17
76 v17 refuses n17
77 v17>v16 nogood 13
77 v16 knows v4=0
77 v16 knows v14=0
77 v16 keeps n13
77 v16 out 0:n13 1:c13
77 v16 makes n18
77 v16 sends v4 link
77 v16 sends v14 link
77 v16 sends v15 nogood 18
78 v9>v10 ok 1
78 v10 knows v9=1
78 v10 out 0:c7
78 v10 takes 1
78 v10 sends v12 ok 1
79 v16>v15 nogood 18
79 v15 knows v4=0
79 v15 knows v14=0
79 v15 keeps n18
79 v15 out 0:n18 1:c12
79 v15 makes n19
79 v15 sends v4 link
79 v15 sends v14 link
79 v15 sends v14 nogood 19
80 v16>v14 link
80 v14 sends v16 ok 0
81 v1>v2 ok 0
82 v7>v8 ok 0
82 v8 knows v7=0
82 v8 makes n20
82 v8 sends v7 nogood 20
83 v10>v12 ok 1
83 v12 knows v10=1
83 v12 out 0:c1 1:c9
83 v12 makes n21
83 v12 sends v11 nogood 21
84 v12>v11 nogood 21
84 v11 knows v8=0
84 v11 knows v10=1
84 v11 keeps n21
84 v11 out 0:n21 1:c8
84 v11 makes n22
84 v11 sends v8 link
84 v11 sends v10 link
84 v11 sends v10 nogood 22
85 v15>v4 link
85 v4 sends v15 ok 0
86 v2>v8 ok 1
86 v8 knows v2=1
86 v8 forgets n6
86 v8 out 1:c5
86 v8 takes 0
86 v8 sends v9 ok 0
86 v8 sends v10 ok 0
86 v8 sends v12 ok 0
87 v15>v14 link
87 v14 sends v15 ok 0
88 v11>v10 link
88 v10 sends v11 ok 1
89 v14>v15 ok 0
90 v16>v4 link
90 v4 sends v16 ok 0
91 v11>v10 nogood 22
91 v10 knows v3=0
91 v10 keeps n22
91 v10 out 0:c7 1:n22
91 v10 makes n23
91 v10 sends v3 link
91 v10 sends v9 nogood 23
92 v14>v16 ok 0
93 v8>v12 ok 0
93 v12 knows v8=0
93 v12 makes n24
93 v12 sends v11 nogood 24
94 v21>v5 link
94 v5 sends v21 ok 0
95 v10>v9 nogood 23
95 v9 knows v3=0
95 v9 keeps n23
95 v9 out 0:c6 1:n23
95 v9 makes n25
95 v9 sends v3 link
95 v9 sends v8 nogood 25
96 v11>v8 link
96 v8 sends v11 ok 0
97 v4>v16 ok 0
98 v8>v10 ok 0
98 v10 knows v8=0
98 v10 makes n26
98 v10 sends v9 nogood 26
99 v8>v7 nogood 20
99 v7 refuses n20
100 v12>v11 nogood 24
100 v11 knows v8=0
100 v11 refuses n24
100 v11 makes n27
100 v11 sends v10 nogood 27
101 v10>v9 nogood 26
101 v9 knows v8=0
101 v9 refuses n26
101 v9 makes n28
101 v9 sends v8 nogood 28
102 v4>v15 ok 0
103 v10>v3 link
103 v3 sends v10 ok 0
104 v11>v10 nogood 27
104 v10 refuses n27
105 v10>v11 ok 1
106 v3>v10 ok 0
107 v21>v5 nogood 16
107 v5 knows v4=0
107 v5 keeps n16
107 v5 out 0:n16
107 v5 takes 2
107 v5 sends v4 link
107 v5 sends v18 ok 2
107 v5 sends v19 ok 2
107 v5 sends v21 ok 2
107 v5 sends v22 ok 2
107 v5 sends v23 ok 2
108 v5>v19 ok 2
108 v19 knows v5=2
108 v19 out 0:c16
108 v19 takes 1
108 v19 sends v20 ok 1
109 v9>v3 link
109 v3 sends v9 ok 0
110 v5>v4 link
110 v4 sends v5 ok 0
111 v5>v23 ok 2
111 v23 knows v5=2
111 v23 makes n29
111 v23 sends v22 nogood 29
112 v14>v19 ok 0
113 v19>v20 ok 1
113 v20 knows v19=1
113 v20 out 0:c2
113 v20 takes 1
114 v23>v22 nogood 29
114 v22 knows v5=2
114 v22 forgets n7
114 v22 keeps n29
114 v22 out 0:n29 1:c19
114 v22 makes n30
114 v22 sends v21 nogood 30
115 v5>v21 ok 0
116 v5>v21 ok 2
116 v21 knows v5=2
116 v21 forgets n15
116 v21 out 1:c18
116 v21 takes 0
116 v21 sends v22 ok 0
117 v5>v22 ok 2
118 v8>v9 ok 0
119 v5>v18 ok 2
119 v18 knows v5=2
119 v18 forgets n11
119 v18 makes n31
119 v18 sends v17 nogood 31
120 v18>v17 nogood 31
120 v17 refuses n31
121 v22>v21 nogood 30
121 v21 keeps n30
121 v21 out 0:n30 1:c18
121 v21 makes n32
121 v21 sends v5 nogood 32
122 v3>v9 ok 0
123 v9>v8 nogood 25
123 v8 knows v3=0
123 v8 keeps n25
123 v8 out 0:n25 1:c5
123 v8 makes n33
123 v8 sends v3 link
123 v8 sends v7 nogood 33
124 v8>v11 ok 0
125 v21>v22 ok 0
125 v22 knows v21=0
125 v22 makes n34
125 v22 sends v21 nogood 34
126 v4>v5 ok 0
127 v8>v3 link
127 v3 sends v8 ok 0
128 v8>v7 nogood 33
128 v7 knows v3=0
128 v7 keeps n33
128 v7 out 0:n33 1:c4
128 v7 makes n35
128 v7 sends v3 link
128 v7 sends v3 nogood 35
129 v9>v8 nogood 28
129 v8 refuses n28
130 v21>v5 nogood 32
130 v5 keeps n32
130 v5 out 0:n16 2:n32
130 v5 takes 3
130 v5 sends v18 ok 3
130 v5 sends v19 ok 3
130 v5 sends v21 ok 3
130 v5 sends v22 ok 3
130 v5 sends v23 ok 3
131 v5>v19 ok 3
131 v19 knows v5=3
131 v19 out 0:n9 1:c16
131 v19 makes n36
131 v19 sends v18 nogood 36
132 v3>v8 ok 0
133 v19>v18 nogood 36
133 v18 knows v5=3
133 v18 keeps n36
133 v18 makes n37
133 v18 sends v17 nogood 37
134 v5>v23 ok 3
134 v23 knows v5=3
134 v23 out 0:c20
134 v23 takes 1
134 v23 sends v24 ok 1
135 v7>v3 link
135 v3 sends v7 ok 0
136 v22>v21 nogood 34
136 v21 refuses n34
137 v7>v3 nogood 35
137 v3 knows v1=0
137 v3 knows v2=1
137 v3 keeps n35
137 v3 out 0:n35
137 v3 takes 1
137 v3 sends v1 link
137 v3 sends v2 link
137 v3 sends v7 ok 1
137 v3 sends v8 ok 1
137 v3 sends v9 ok 1
137 v3 sends v10 ok 1
137 v3 sends v11 ok 1
137 v3 sends v15 ok 1
138 v5>v22 ok 3
138 v22 knows v5=3
138 v22 forgets n29
138 v22 out 1:c19
138 v22 takes 0
138 v22 sends v23 ok 0
138 v22 sends v24 ok 0
138 v22 sends v26 ok 0
139 v18>v17 nogood 37
139 v17 refuses n37
140 v23>v24 ok 1
140 v24 knows v23=1
140 v24 out 0:c21
140 v24 takes 1
140 v24 sends v26 ok 1
141 v3>v2 link
141 v2 sends v3 ok 1
142 v22>v23 ok 0
142 v23 knows v22=0
143 v5>v21 ok 3
143 v21 knows v5=3
143 v21 forgets n30
143 v21 out 1:c18
143 v21 takes 0
143 v21 sends v22 ok 0
144 v2>v3 ok 1
145 v3>v8 ok 1
145 v8 knows v3=1
145 v8 forgets n25
145 v8 out 1:c5
145 v8 takes 0
145 v8 sends v9 ok 0
145 v8 sends v10 ok 0
145 v8 sends v11 ok 0
145 v8 sends v12 ok 0
146 v15>v14 nogood 19
146 v14 knows v3=0
146 v14 knows v4=0
146 v14 keeps n19
146 v14 out 0:n19 1:c11
146 v14 makes n38
146 v14 sends v3 link
146 v14 sends v4 link
146 v14 sends v13 nogood 38
147 v3>v9 ok 1
147 v9 knows v3=1
147 v9 forgets n23
147 v9 out 0:c6
147 v9 takes 1
147 v9 sends v10 ok 1
148 v8>v12 ok 0
148 v12 knows v8=0
148 v12 makes n39
148 v12 sends v11 nogood 39
149 v3>v1 link
149 v1 sends v3 ok 0
150 v3>v7 ok 0
151 v8>v11 ok 0
151 v11 knows v8=0
151 v11 makes n40
151 v11 sends v10 nogood 40
152 v8>v10 ok 0
152 v10 knows v8=0
152 v10 makes n41
152 v10 sends v9 nogood 41
153 v14>v4 link
153 v4 sends v14 ok 0
154 v3>v7 ok 1
154 v7 knows v3=1
154 v7 forgets n33
154 v7 out 1:c4
154 v7 takes 0
154 v7 sends v8 ok 0
155 v24>v26 ok 1
155 v26 knows v24=1
155 v26 out 0:c3 1:c23
155 v26 makes n42
155 v26 sends v25 nogood 42
156 v8>v9 ok 0
156 v9 knows v8=0
157 v14>v3 link
157 v3 sends v14 ok 1
158 v5>v18 ok 3
159 v3>v14 ok 1
159 v14 knows v3=1
159 v14 forgets n19
159 v14 out 1:c11
159 v14 takes 0
159 v14 sends v15 ok 0
159 v14 sends v16 ok 0
159 v14 sends v17 ok 0
159 v14 sends v18 ok 0
159 v14 sends v19 ok 0
159 v14 sends v20 ok 0
160 v7>v8 ok 0
160 v8 knows v7=0
161 v14>v15 ok 0
161 v15 knows v14=0
161 v15 makes n43
161 v15 sends v14 nogood 43
162 v26>v25 nogood 42
162 v25 knows v22=0
162 v25 knows v24=1
162 v25 keeps n42
162 v25 out 0:n42 1:c22
162 v25 makes n44
162 v25 sends v22 link
162 v25 sends v24 link
162 v25 sends v24 nogood 44
163 v10>v9 nogood 41
163 v9 refuses n41
164 v14>v20 ok 0
164 v20 knows v14=0
165 v14>v16 ok 0
165 v16 knows v14=0
165 v16 makes n45
165 v16 sends v15 nogood 45
166 v22>v26 ok 0
166 v26 knows v22=0
166 v26 makes n46
166 v26 sends v25 nogood 46
167 v14>v17 ok 0
167 v17 knows v14=0
167 v17 makes n47
167 v17 sends v16 nogood 47
168 v17>v16 nogood 47
168 v16 refuses n47
169 v14>v18 ok 0
169 v18 knows v14=0
169 v18 makes n48
169 v18 sends v17 nogood 48
170 v4>v14 ok 0
171 v16>v15 nogood 45
171 v15 refuses n45
172 v12>v11 nogood 39
172 v11 refuses n39
173 v25>v22 link
173 v22 sends v25 ok 0
174 v9>v10 ok 1
174 v10 knows v9=1
174 v10 makes n49
174 v10 sends v9 nogood 49
175 v3>v10 ok 1
175 v10 knows v3=1
175 v10 forgets n22
175 v10 out 0:c7
175 v10 takes 1
175 v10 sends v11 ok 1
175 v10 sends v12 ok 1
176 v25>v24 link
176 v24 sends v25 ok 1
177 v22>v25 ok 0
177 v25 knows v22=0
177 v25 makes n50
177 v25 sends v24 nogood 50
178 v26>v25 nogood 46
178 v25 refuses n46
179 v10>v11 ok 1
179 v11 knows v10=1
179 v11 makes n51
179 v11 sends v10 nogood 51
180 v10>v12 ok 1
180 v12 knows v10=1
180 v12 makes n52
180 v12 sends v11 nogood 52
181 v21>v22 ok 0
181 v22 knows v21=0
182 v18>v17 nogood 48
182 v17 refuses n48
183 v3>v11 ok 1
183 v11 knows v3=1
183 v11 out 0:c8
183 v11 takes 1
183 v11 sends v12 ok 1
184 v12>v11 nogood 52
184 v11 refuses n52
185 v22>v24 ok 0
185 v24 knows v22=0
186 v14>v13 nogood 38
186 v13 knows v3=0
186 v13 knows v4=0
186 v13 keeps n38
186 v13 out 0:n38 1:c10
186 v13 makes n53
186 v13 sends v3 link
186 v13 sends v4 link
186 v13 sends v4 nogood 53
187 v15>v14 nogood 43
187 v14 refuses n43
188 v11>v12 ok 1
188 v12 knows v11=1
188 v12 out 0:c1
188 v12 takes 1
189 v25>v24 nogood 44
189 v24 knows v6=0
189 v24 keeps n44
189 v24 out 0:c21 1:n44
189 v24 makes n54
189 v24 sends v6 link
189 v24 sends v23 nogood 54
190 v13>v4 link
190 v4 sends v13 ok 0
191 v14>v19 ok 0
191 v19 knows v14=0
191 v19 makes n55
191 v19 sends v18 nogood 55
192 v13>v3 link
192 v3 sends v13 ok 1
193 v19>v18 nogood 55
193 v18 refuses n55
194 v25>v24 nogood 50
194 v24 refuses n50
195 v24>v25 ok 1
196 v11>v10 nogood 40
196 v10 refuses n40
197 v3>v15 ok 1
197 v15 knows v3=1
197 v15 makes n56
197 v15 sends v14 nogood 56
198 v10>v9 nogood 49
198 v9 refuses n49
199 v13>v4 nogood 53
199 v4 knows v2=1
199 v4 knows v3=0
199 v4 keeps n53
199 v4 out 0:n53
199 v4 takes 2
199 v4 sends v2 link
199 v4 sends v3 link
199 v4 sends v5 ok 2
199 v4 sends v13 ok 2
199 v4 sends v14 ok 2
199 v4 sends v15 ok 2
199 v4 sends v16 ok 2
199 v4 sends v17 ok 2
199 v4 sends v21 ok 2
200 v15>v14 nogood 56
200 v14 keeps n56
200 v14 out 0:n56 1:c11
200 v14 makes n57
200 v14 sends v13 nogood 57
201 v3>v13 ok 1
201 v13 knows v3=1
201 v13 forgets n38
201 v13 out 1:c10
201 v13 takes 0
201 v13 sends v14 ok 0
202 v11>v10 nogood 51
202 v10 refuses n51
203 v24>v6 link
203 v6 sends v24 ok 0
204 v13>v14 ok 0
204 v14 knows v13=0
204 v14 makes n58
204 v14 sends v13 nogood 58
205 v4>v14 ok 2
205 v14 knows v4=2
205 v14 forgets n56
205 v14 out 1:c11
205 v14 takes 0
205 v14 sends v15 ok 0
205 v14 sends v16 ok 0
205 v14 sends v17 ok 0
205 v14 sends v18 ok 0
205 v14 sends v19 ok 0
205 v14 sends v20 ok 0
206 v14>v19 ok 0
206 v19 knows v14=0
206 v19 makes n59
206 v19 sends v18 nogood 59
207 v14>v13 nogood 57
207 v13 keeps n57
207 v13 out 0:n57 1:c10
207 v13 makes n60
207 v13 sends v4 nogood 60
208 v14>v15 ok 0
208 v15 knows v14=0
208 v15 makes n61
208 v15 sends v14 nogood 61
209 v4>v15 ok 2
209 v15 knows v4=2
209 v15 forgets n18
209 v15 out 1:c12
209 v15 takes 0
209 v15 sends v16 ok 0
210 v4>v2 link
210 v2 sends v4 ok 1
211 v4>v21 ok 2
211 v21 knows v4=2
212 v4>v17 ok 2
212 v17 knows v4=2
212 v17 out 0:c14
212 v17 takes 1
212 v17 sends v18 ok 1
213 v4>v16 ok 2
213 v16 knows v4=2
213 v16 forgets n13
213 v16 out 1:c13
213 v16 takes 0
213 v16 sends v17 ok 0
213 v16 sends v18 ok 0
213 v16 sends v19 ok 0
213 v16 sends v20 ok 0
214 v15>v16 ok 0
214 v16 knows v15=0
215 v24>v23 nogood 54
215 v23 knows v6=0
215 v23 keeps n54
215 v23 out 0:c20 1:n54
215 v23 makes n62
215 v23 sends v6 link
215 v23 sends v22 nogood 62
216 v16>v18 ok 0
216 v18 knows v16=0
216 v18 makes n63
216 v18 sends v17 nogood 63
217 v14>v13 nogood 58
217 v13 refuses n58
218 v1>v3 ok 0
219 v14>v18 ok 0
219 v18 knows v14=0
219 v18 makes n64
219 v18 sends v17 nogood 64
220 v18>v17 nogood 63
220 v17 knows v16=0
220 v17 refuses n63
221 v16>v19 ok 0
221 v19 knows v16=0
221 v19 makes n65
221 v19 sends v18 nogood 65
222 v23>v6 link
222 v6 sends v23 ok 0
223 v2>v4 ok 1
224 v18>v17 nogood 64
224 v17 knows v14=0
224 v17 refuses n64
225 v19>v18 nogood 59
225 v18 refuses n59
226 v14>v17 ok 0
227 v16>v17 ok 0
228 v16>v20 ok 0
228 v20 knows v16=0
229 v14>v16 ok 0
229 v16 knows v14=0
230 v4>v13 ok 0
231 v13>v4 nogood 60
231 v4 knows v3=1
231 v4 forgets n53
231 v4 keeps n60
231 v4 out 0:n60
232 v6>v24 ok 0
233 v14>v20 ok 0
233 v20 knows v14=0
234 v4>v13 ok 2
234 v13 knows v4=2
234 v13 forgets n57
234 v13 out 1:c10
234 v13 takes 0
234 v13 sends v14 ok 0
235 v4>v5 ok 2
235 v5 knows v4=2
235 v5 forgets n16
235 v5 forgets n32
235 v5 out
236 v17>v18 ok 1
236 v18 knows v17=1
236 v18 out 0:c15 1:n36
236 v18 makes n66
236 v18 sends v17 nogood 66
237 v15>v14 nogood 61
237 v14 refuses n61
238 v4>v3 link
238 v3 sends v4 ok 1
239 v6>v23 ok 0
240 v13>v14 ok 0
240 v14 knows v13=0
241 v3>v4 ok 1
242 v19>v18 nogood 65
242 v18 refuses n65
243 v23>v22 nogood 62
243 v22 knows v6=0
243 v22 keeps n62
243 v22 out 0:n62 1:c19
243 v22 makes n67
243 v22 sends v6 link
243 v22 sends v21 nogood 67
244 v22>v21 nogood 67
244 v21 knows v6=0
244 v21 keeps n67
244 v21 out 0:n67 1:c18
244 v21 makes n68
244 v21 sends v6 link
244 v21 sends v6 nogood 68
245 v21>v6 link
245 v6 sends v21 ok 0
246 v22>v6 link
246 v6 sends v22 ok 0
247 v21>v6 nogood 68
247 v6 knows v4=2
247 v6 knows v5=3
247 v6 keeps n68
247 v6 out 0:n68
247 v6 takes 3
247 v6 sends v4 link
247 v6 sends v5 link
247 v6 sends v21 ok 3
247 v6 sends v22 ok 3
247 v6 sends v23 ok 3
247 v6 sends v24 ok 3
247 v6 sends v25 ok 3
248 v6>v4 link
248 v4 sends v6 ok 2
249 v6>v5 link
249 v5 sends v6 ok 3
250 v6>v21 ok 0
251 v6>v24 ok 3
251 v24 knows v6=3
251 v24 forgets n44
251 v24 out 0:c21
251 v24 takes 1
251 v24 sends v25 ok 1
251 v24 sends v26 ok 1
252 v24>v26 ok 1
252 v26 knows v24=1
252 v26 makes n69
252 v26 sends v25 nogood 69
253 v18>v17 nogood 66
253 v17 knows v5=3
253 v17 keeps n66
253 v17 out 0:c14 1:n66
253 v17 makes n70
253 v17 sends v5 link
253 v17 sends v16 nogood 70
254 v24>v25 ok 1
254 v25 knows v24=1
254 v25 makes n71
254 v25 sends v24 nogood 71
255 v6>v25 ok 3
255 v25 knows v6=3
255 v25 out 0:c22
255 v25 takes 1
255 v25 sends v26 ok 1
256 v25>v24 nogood 71
256 v24 refuses n71
257 v17>v16 nogood 70
257 v16 knows v5=3
257 v16 keeps n70
257 v16 out 0:n70 1:c13
257 v16 makes n72
257 v16 sends v5 link
257 v16 sends v15 nogood 72
258 v16>v15 nogood 72
258 v15 knows v5=3
258 v15 keeps n72
258 v15 out 0:n72 1:c12
258 v15 makes n73
258 v15 sends v5 link
258 v15 sends v14 nogood 73
259 v15>v5 link
259 v5 sends v15 ok 3
260 v5>v6 ok 3
261 v5>v15 ok 3
262 v25>v26 ok 1
262 v26 knows v25=1
262 v26 out 0:c3
262 v26 takes 1
263 v17>v5 link
263 v5 sends v17 ok 3
264 v6>v21 ok 3
264 v21 knows v6=3
264 v21 forgets n67
264 v21 out 1:c18
264 v21 takes 0
264 v21 sends v22 ok 0
265 v26>v25 nogood 69
265 v25 refuses n69
266 v4>v6 ok 2
267 v16>v5 link
267 v5 sends v16 ok 3
268 v15>v14 nogood 73
268 v14 knows v5=3
268 v14 keeps n73
268 v14 out 0:n73 1:c11
268 v14 makes n74
268 v14 sends v5 link
268 v14 sends v13 nogood 74
269 v14>v13 nogood 74
269 v13 knows v5=3
269 v13 keeps n74
269 v13 out 0:n74 1:c10
269 v13 makes n75
269 v13 sends v5 link
269 v13 sends v5 nogood 75
270 v6>v22 ok 0
271 v13>v5 link
271 v5 sends v13 ok 3
272 v5>v16 ok 3
273 v6>v22 ok 3
273 v22 knows v6=3
273 v22 forgets n62
273 v22 out 1:c19
273 v22 takes 0
273 v22 sends v23 ok 0
273 v22 sends v24 ok 0
273 v22 sends v25 ok 0
273 v22 sends v26 ok 0
274 v6>v23 ok 3
274 v23 knows v6=3
274 v23 forgets n54
274 v23 out 0:c20
274 v23 takes 1
274 v23 sends v24 ok 1
275 v22>v23 ok 0
275 v23 knows v22=0
276 v5>v13 ok 3
277 v5>v17 ok 3
278 v22>v26 ok 0
278 v26 knows v22=0
279 v21>v22 ok 0
279 v22 knows v21=0
280 v22>v25 ok 0
280 v25 knows v22=0
281 v23>v24 ok 1
281 v24 knows v23=1
282 v14>v5 link
282 v5 sends v14 ok 3
283 v22>v24 ok 0
283 v24 knows v22=0
284 v13>v5 nogood 75
284 v5 knows v2=1
284 v5 knows v3=1
284 v5 keeps n75
284 v5 out 3:n75
284 v5 takes 0
284 v5 sends v2 link
284 v5 sends v3 link
284 v5 sends v6 ok 0
284 v5 sends v13 ok 0
284 v5 sends v14 ok 0
284 v5 sends v15 ok 0
284 v5 sends v16 ok 0
284 v5 sends v17 ok 0
284 v5 sends v18 ok 0
284 v5 sends v19 ok 0
284 v5 sends v21 ok 0
284 v5 sends v22 ok 0
284 v5 sends v23 ok 0
285 v5>v13 ok 0
285 v13 knows v5=0
285 v13 forgets n74
285 v13 out 1:c10
285 v13 takes 0
285 v13 sends v14 ok 0
286 v5>v6 ok 0
286 v6 knows v5=0
286 v6 forgets n68
286 v6 out
287 v5>v3 link
287 v3 sends v5 ok 1
288 v3>v5 ok 1
289 v5>v21 ok 0
289 v21 knows v5=0
290 v5>v16 ok 0
290 v16 knows v5=0
290 v16 forgets n70
290 v16 out 1:c13
290 v16 takes 0
290 v16 sends v17 ok 0
290 v16 sends v18 ok 0
290 v16 sends v19 ok 0
290 v16 sends v20 ok 0
291 v5>v23 ok 0
291 v23 knows v5=0
291 v23 out 0:n5 1:c20
291 v23 makes n76
291 v23 sends v22 nogood 76
292 v16>v19 ok 0
292 v19 knows v16=0
292 v19 makes n77
292 v19 sends v18 nogood 77
293 v5>v18 ok 0
293 v18 knows v5=0
293 v18 forgets n36
293 v18 out 0:c15
293 v18 takes 1
293 v18 sends v19 ok 1
293 v18 sends v20 ok 1
294 v5>v2 link
294 v2 sends v5 ok 1
295 v23>v22 nogood 76
295 v22 knows v5=0
295 v22 keeps n76
295 v22 out 0:n76 1:c19
295 v22 makes n78
295 v22 sends v21 nogood 78
296 v18>v19 ok 1
296 v19 knows v18=1
296 v19 makes n79
296 v19 sends v18 nogood 79
297 v5>v22 ok 0
298 v5>v17 ok 0
298 v17 knows v5=0
298 v17 forgets n66
298 v17 out 0:c14
298 v17 takes 1
298 v17 sends v18 ok 1
299 v22>v21 nogood 78
299 v21 keeps n78
299 v21 out 0:n78 1:c18
299 v21 makes n80
299 v21 sends v5 nogood 80
300 v5>v19 ok 0
300 v19 knows v5=0
300 v19 makes n81
300 v19 sends v18 nogood 81
301 v16>v17 ok 0
301 v17 knows v16=0
302 v17>v18 ok 1
302 v18 knows v17=1
303 v21>v5 nogood 80
303 v5 keeps n80
303 v5 out 0:n80 3:n75
303 v5 takes 2
303 v5 sends v6 ok 2
303 v5 sends v13 ok 2
303 v5 sends v14 ok 2
303 v5 sends v15 ok 2
303 v5 sends v16 ok 2
303 v5 sends v17 ok 2
303 v5 sends v18 ok 2
303 v5 sends v19 ok 2
303 v5 sends v21 ok 2
303 v5 sends v22 ok 2
303 v5 sends v23 ok 2
304 v18>v20 ok 1
304 v20 knows v18=1
305 v5>v16 ok 2
305 v16 knows v5=2
306 v5>v23 ok 2
306 v23 knows v5=2
306 v23 makes n82
306 v23 sends v22 nogood 82
307 v16>v20 ok 0
307 v20 knows v16=0
308 v16>v18 ok 0
308 v18 knows v16=0
309 v5>v17 ok 2
309 v17 knows v5=2
310 v5>v21 ok 2
310 v21 knows v5=2
310 v21 forgets n78
310 v21 out 1:c18
310 v21 takes 0
310 v21 sends v22 ok 0
311 v5>v13 ok 2
311 v13 knows v5=2
312 v5>v14 ok 3
313 v23>v22 nogood 82
313 v22 knows v5=2
313 v22 forgets n76
313 v22 keeps n82
313 v22 out 0:n82 1:c19
313 v22 makes n83
313 v22 sends v21 nogood 83
314 v19>v18 nogood 77
314 v18 refuses n77
315 v5>v15 ok 0
315 v15 knows v5=0
315 v15 forgets n72
315 v15 out 1:c12
315 v15 takes 0
315 v15 sends v16 ok 0
316 v5>v14 ok 0
316 v14 knows v5=0
316 v14 forgets n73
316 v14 out 1:c11
316 v14 takes 0
316 v14 sends v15 ok 0
316 v14 sends v16 ok 0
316 v14 sends v17 ok 0
316 v14 sends v18 ok 0
316 v14 sends v19 ok 0
316 v14 sends v20 ok 0
317 v2>v5 ok 1
318 v13>v14 ok 0
318 v14 knows v13=0
319 v14>v19 ok 0
319 v19 knows v14=0
319 v19 makes n84
319 v19 sends v18 nogood 84
320 v14>v17 ok 0
320 v17 knows v14=0
321 v5>v18 ok 2
321 v18 knows v5=2
322 v14>v18 ok 0
322 v18 knows v14=0
323 v15>v16 ok 0
323 v16 knows v15=0
324 v5>v19 ok 2
324 v19 knows v5=2
324 v19 out 0:c16
324 v19 takes 1
324 v19 sends v20 ok 1
325 v19>v20 ok 1
325 v20 knows v19=1
326 v14>v16 ok 0
326 v16 knows v14=0
327 v21>v22 ok 0
327 v22 knows v21=0
327 v22 makes n85
327 v22 sends v21 nogood 85
328 v14>v15 ok 0
328 v15 knows v14=0
329 v5>v22 ok 2
330 v19>v18 nogood 79
330 v18 refuses n79
331 v19>v18 nogood 81
331 v18 refuses n81
332 v14>v20 ok 0
332 v20 knows v14=0
333 v5>v15 ok 2
333 v15 knows v5=2
334 v22>v21 nogood 83
334 v21 keeps n83
334 v21 out 0:n83 1:c18
334 v21 makes n86
334 v21 sends v5 nogood 86
335 v5>v6 ok 2
335 v6 knows v5=2
336 v21>v5 nogood 86
336 v5 keeps n86
336 v5 out 0:n80 2:n86 3:n75
336 v5 makes n87
336 v5 sends v4 nogood 87
337 v5>v4 nogood 87
337 v4 keeps n87
337 v4 out 0:n60 2:n87
337 v4 takes 3
337 v4 sends v5 ok 3
337 v4 sends v6 ok 3
337 v4 sends v13 ok 3
337 v4 sends v14 ok 3
337 v4 sends v15 ok 3
337 v4 sends v16 ok 3
337 v4 sends v17 ok 3
337 v4 sends v21 ok 3
338 v4>v6 ok 3
338 v6 knows v4=3
339 v4>v14 ok 3
339 v14 knows v4=3
340 v4>v17 ok 3
340 v17 knows v4=3
340 v17 out 0:n12 1:c14
340 v17 makes n88
340 v17 sends v16 nogood 88
341 v4>v5 ok 3
341 v5 knows v4=3
341 v5 forgets n75
341 v5 forgets n80
341 v5 forgets n86
341 v5 out
341 v5 takes 2
341 v5 sends v6 ok 2
341 v5 sends v13 ok 2
341 v5 sends v14 ok 2
341 v5 sends v15 ok 2
341 v5 sends v16 ok 2
341 v5 sends v17 ok 2
341 v5 sends v18 ok 2
341 v5 sends v19 ok 2
341 v5 sends v21 ok 2
341 v5 sends v22 ok 2
341 v5 sends v23 ok 2
342 v19>v18 nogood 84
342 v18 refuses n84
343 v4>v16 ok 3
343 v16 knows v4=3
344 v5>v19 ok 2
344 v19 knows v5=2
345 v5>v6 ok 2
345 v6 knows v5=2
346 v5>v16 ok 2
346 v16 knows v5=2
347 v5>v22 ok 2
347 v22 knows v5=2
347 v22 makes n89
347 v22 sends v21 nogood 89
348 v5>v17 ok 2
348 v17 knows v5=2
348 v17 makes n90
348 v17 sends v16 nogood 90
349 v22>v21 nogood 85
349 v21 refuses n85
350 v5>v18 ok 2
350 v18 knows v5=2
351 v4>v13 ok 3
351 v13 knows v4=3
352 v5>v23 ok 2
352 v23 knows v5=2
352 v23 makes n91
352 v23 sends v22 nogood 91
353 v5>v15 ok 2
353 v15 knows v5=2
354 v4>v21 ok 3
354 v21 knows v4=3
354 v21 out 0:c18
354 v21 takes 1
354 v21 sends v22 ok 1
355 v5>v21 ok 2
355 v21 knows v5=2
356 v5>v13 ok 2
356 v13 knows v5=2
357 v22>v21 nogood 89
357 v21 refuses n89
358 v21>v22 ok 1
358 v22 knows v21=1
358 v22 out 0:c19
358 v22 takes 1
358 v22 sends v23 ok 1
358 v22 sends v24 ok 1
358 v22 sends v25 ok 1
358 v22 sends v26 ok 1
359 v22>v26 ok 1
359 v26 knows v22=1
359 v26 out 0:c23
360 v22>v24 ok 1
360 v24 knows v22=1
360 v24 forgets n1
361 v22>v23 ok 1
361 v23 knows v22=1
361 v23 forgets n5
361 v23 out 1:c20
361 v23 takes 0
361 v23 sends v24 ok 0
362 v17>v16 nogood 88
362 v16 keeps n88
362 v16 out 0:n88 1:c13
362 v16 makes n92
362 v16 sends v15 nogood 92
363 v17>v16 nogood 90
363 v16 refuses n90
364 v23>v22 nogood 91
364 v22 refuses n91
365 v16>v15 nogood 92
365 v15 knows v4=3
365 v15 keeps n92
365 v15 out 0:n92 1:c12
365 v15 makes n93
365 v15 sends v14 nogood 93
366 v22>v25 ok 1
366 v25 knows v22=1
366 v25 forgets n42
367 v4>v15 ok 3
368 v23>v24 ok 0
368 v24 knows v23=0
368 v24 out 1:c21
368 v24 takes 0
368 v24 sends v25 ok 0
368 v24 sends v26 ok 0
369 v15>v14 nogood 93
369 v14 keeps n93
369 v14 out 0:n93 1:c11
369 v14 makes n94
369 v14 sends v13 nogood 94
370 v14>v13 nogood 94
370 v13 keeps n94
370 v13 out 0:n94 1:c10
370 v13 makes n95
370 v13 sends v4 nogood 95
371 v13>v4 nogood 95
371 v4 keeps n95
371 v4 out 0:n60 2:n87 3:n95
371 v4 makes n96
371 v4 sends v3 nogood 96
372 v24>v25 ok 0
372 v25 knows v24=0
373 v5>v14 ok 2
373 v14 knows v5=2
373 v14 makes n97
373 v14 sends v13 nogood 97
374 v14>v13 nogood 97
374 v13 refuses n97
375 v5>v14 ok 2
375 v14 knows v5=2
375 v14 makes n98
375 v14 sends v13 nogood 98
376 v14>v13 nogood 98
376 v13 refuses n98
377 v24>v26 ok 0
377 v26 knows v24=0
377 v26 out 0:c3
378 v4>v3 nogood 96
378 v3 keeps n96
378 v3 out 0:n35 1:n96
378 v3 takes 2
378 v3 sends v4 ok 2
378 v3 sends v5 ok 2
378 v3 sends v7 ok 2
378 v3 sends v8 ok 2
378 v3 sends v9 ok 2
378 v3 sends v10 ok 2
378 v3 sends v11 ok 2
378 v3 sends v13 ok 2
378 v3 sends v14 ok 2
378 v3 sends v15 ok 2
379 v3>v7 ok 2
379 v7 knows v3=2
380 v3>v11 ok 2
380 v11 knows v3=2
380 v11 out 0:n21 1:c8
380 v11 makes n99
380 v11 sends v10 nogood 99
381 v3>v4 ok 2
381 v4 knows v3=2
381 v4 forgets n60
381 v4 forgets n87
381 v4 forgets n95
381 v4 out
381 v4 takes 3
381 v4 sends v5 ok 3
381 v4 sends v6 ok 3
381 v4 sends v13 ok 3
381 v4 sends v14 ok 3
381 v4 sends v15 ok 3
381 v4 sends v16 ok 3
381 v4 sends v17 ok 3
381 v4 sends v21 ok 3
382 v4>v21 ok 3
382 v21 knows v4=3
383 v4>v16 ok 3
383 v16 knows v4=3
383 v16 makes n100
383 v16 sends v15 nogood 100
384 v4>v13 ok 3
384 v13 knows v4=3
384 v13 makes n101
384 v13 sends v4 nogood 101
385 v4>v17 ok 3
385 v17 knows v4=3
385 v17 makes n102
385 v17 sends v16 nogood 102
386 v4>v6 ok 3
386 v6 knows v4=3
387 v3>v15 ok 2
387 v15 knows v3=2
387 v15 out 0:c12
387 v15 takes 1
387 v15 sends v16 ok 1
388 v13>v4 nogood 101
388 v4 refuses n101
389 v4>v14 ok 3
389 v14 knows v4=3
389 v14 makes n103
389 v14 sends v13 nogood 103
390 v16>v15 nogood 100
390 v15 knows v4=3
390 v15 refuses n100
391 v17>v16 nogood 102
391 v16 refuses n102
392 v11>v10 nogood 99
392 v10 knows v3=2
392 v10 keeps n99
392 v10 out 0:c7 1:n99
392 v10 makes n104
392 v10 sends v9 nogood 104
393 v4>v15 ok 3
394 v14>v13 nogood 103
394 v13 refuses n103
395 v3>v14 ok 2
395 v14 knows v3=2
395 v14 forgets n93
395 v14 out 1:c11
395 v14 takes 0
395 v14 sends v15 ok 0
395 v14 sends v16 ok 0
395 v14 sends v17 ok 0
395 v14 sends v18 ok 0
395 v14 sends v19 ok 0
395 v14 sends v20 ok 0
396 v3>v5 ok 2
396 v5 knows v3=2
397 v4>v5 ok 3
397 v5 knows v4=3
398 v3>v8 ok 2
398 v8 knows v3=2
399 v14>v16 ok 0
399 v16 knows v14=0
399 v16 makes n105
399 v16 sends v15 nogood 105
400 v14>v15 ok 0
400 v15 knows v14=0
401 v3>v9 ok 2
401 v9 knows v3=2
402 v14>v20 ok 0
402 v20 knows v14=0
403 v14>v17 ok 0
403 v17 knows v14=0
403 v17 makes n106
403 v17 sends v16 nogood 106
404 v16>v15 nogood 105
404 v15 refuses n105
405 v14>v19 ok 0
405 v19 knows v14=0
406 v17>v16 nogood 106
406 v16 refuses n106
407 v3>v13 ok 2
407 v13 knows v3=2
407 v13 forgets n94
407 v13 out 1:c10
407 v13 takes 0
407 v13 sends v14 ok 0
408 v3>v10 ok 2
409 v14>v18 ok 0
409 v18 knows v14=0
410 v15>v16 ok 1
410 v16 knows v15=1
410 v16 out 0:c13
410 v16 takes 1
410 v16 sends v17 ok 1
410 v16 sends v18 ok 1
410 v16 sends v19 ok 1
410 v16 sends v20 ok 1
411 v16>v18 ok 1
411 v18 knows v16=1
411 v18 forgets n8
412 v13>v14 ok 0
412 v14 knows v13=0
413 v16>v17 ok 1
413 v17 knows v16=1
413 v17 forgets n12
413 v17 out 1:c14
413 v17 takes 0
413 v17 sends v18 ok 0
414 v10>v9 nogood 104
414 v9 keeps n104
414 v9 out 0:c6 1:n104
414 v9 makes n107
414 v9 sends v8 nogood 107
415 v9>v8 nogood 107
415 v8 keeps n107
415 v8 out 0:n107 1:c5
415 v8 makes n108
415 v8 sends v7 nogood 108
416 v8>v7 nogood 108
416 v7 keeps n108
416 v7 out 0:n108 1:c4
416 v7 makes n109
416 v7 sends v3 nogood 109
417 v7>v3 nogood 109
417 v3 keeps n109
417 v3 out 0:n35 1:n96 2:n109
417 v3 makes n110
417 v3 sends v2 nogood 110
418 v17>v18 ok 0
418 v18 knows v17=0
418 v18 out 1:c15
418 v18 takes 0
418 v18 sends v19 ok 0
418 v18 sends v20 ok 0
419 v3>v2 nogood 110
419 v2 keeps n110
419 v2 out 0:n14 1:n110
419 v2 takes 2
419 v2 sends v3 ok 2
419 v2 sends v4 ok 2
419 v2 sends v5 ok 2
419 v2 sends v7 ok 2
419 v2 sends v8 ok 2
419 v2 sends v9 ok 2
419 v2 sends v13 ok 2
420 v2>v7 ok 2
420 v7 knows v2=2
420 v7 forgets n108
420 v7 out 1:c4
420 v7 takes 0
420 v7 sends v8 ok 0
421 v18>v20 ok 0
421 v20 knows v18=0
421 v20 out 0:c2 1:c2
421 v20 makes n111
421 v20 sends v18 nogood 111
422 v2>v13 ok 2
422 v13 knows v2=2
422 v13 out 0:c10
422 v13 takes 1
422 v13 sends v14 ok 1
423 v7>v8 ok 0
423 v8 knows v7=0
423 v8 makes n112
423 v8 sends v7 nogood 112
424 v18>v19 ok 0
424 v19 knows v18=0
424 v19 forgets n9
425 v2>v5 ok 2
425 v5 knows v2=2
426 v2>v8 ok 2
426 v8 knows v2=2
426 v8 forgets n107
426 v8 out 1:c5
426 v8 takes 0
426 v8 sends v9 ok 0
426 v8 sends v10 ok 0
426 v8 sends v11 ok 0
426 v8 sends v12 ok 0
427 v8>v12 ok 0
427 v12 knows v8=0
428 v2>v9 ok 2
428 v9 knows v2=2
428 v9 out 0:n4 1:c6
428 v9 makes n113
428 v9 sends v8 nogood 113
429 v8>v11 ok 0
429 v11 knows v8=0
429 v11 makes n114
429 v11 sends v10 nogood 114
430 v8>v9 ok 0
430 v9 knows v8=0
430 v9 makes n115
430 v9 sends v8 nogood 115
431 v20>v18 nogood 111
431 v18 refuses n111
432 v16>v19 ok 1
432 v19 knows v16=1
433 v9>v8 nogood 113
433 v8 keeps n113
433 v8 out 0:n113 1:c5
433 v8 makes n116
433 v8 sends v7 nogood 116
434 v11>v10 nogood 114
434 v10 knows v8=0
434 v10 refuses n114
434 v10 makes n117
434 v10 sends v9 nogood 117
435 v9>v8 nogood 115
435 v8 refuses n115
436 v10>v9 nogood 117
436 v9 refuses n117
437 v2>v3 ok 2
437 v3 knows v2=2
437 v3 forgets n35
437 v3 forgets n96
437 v3 forgets n109
437 v3 out
437 v3 takes 2
437 v3 sends v4 ok 2
437 v3 sends v5 ok 2
437 v3 sends v7 ok 2
437 v3 sends v8 ok 2
437 v3 sends v9 ok 2
437 v3 sends v10 ok 2
437 v3 sends v11 ok 2
437 v3 sends v13 ok 2
437 v3 sends v14 ok 2
437 v3 sends v15 ok 2
438 v8>v7 nogood 112
438 v7 refuses n112
439 v2>v4 ok 2
439 v4 knows v2=2
440 v3>v15 ok 2
440 v15 knows v3=2
441 v3>v11 ok 2
441 v11 knows v3=2
441 v11 makes n118
441 v11 sends v10 nogood 118
442 v13>v14 ok 1
442 v14 knows v13=1
442 v14 out 0:c11
442 v14 takes 1
442 v14 sends v15 ok 1
442 v14 sends v16 ok 1
442 v14 sends v17 ok 1
442 v14 sends v18 ok 1
442 v14 sends v19 ok 1
442 v14 sends v20 ok 1
443 v3>v5 ok 2
443 v5 knows v3=2
444 v8>v10 ok 0
445 v14>v20 ok 1
445 v20 knows v14=1
445 v20 out 0:c2
445 v20 takes 1
446 v14>v15 ok 1
446 v15 knows v14=1
446 v15 forgets n92
447 v14>v19 ok 1
447 v19 knows v14=1
448 v3>v8 ok 2
448 v8 knows v3=2
448 v8 makes n119
448 v8 sends v7 nogood 119
449 v3>v4 ok 2
449 v4 knows v3=2
450 v14>v16 ok 1
450 v16 knows v14=1
450 v16 forgets n88
451 v16>v20 ok 1
451 v20 knows v16=1
451 v20 out 0:c17
452 v14>v18 ok 1
452 v18 knows v14=1
453 v11>v10 nogood 118
453 v10 knows v3=2
453 v10 refuses n118
453 v10 makes n120
453 v10 sends v9 nogood 120
454 v3>v10 ok 2
455 v3>v7 ok 2
455 v7 knows v3=2
456 v3>v14 ok 2
456 v14 knows v3=2
457 v3>v13 ok 2
457 v13 knows v3=2
458 v3>v9 ok 2
458 v9 knows v3=2
458 v9 makes n121
458 v9 sends v8 nogood 121
459 v10>v9 nogood 120
459 v9 refuses n120
460 v9>v8 nogood 121
460 v8 refuses n121
461 v14>v17 ok 1
461 v17 knows v14=1
462 v8>v7 nogood 116
462 v7 keeps n116
462 v7 out 0:n116 1:c4
462 v7 makes n122
462 v7 sends v2 nogood 122
463 v8>v7 nogood 119
463 v7 refuses n119
464 v7>v2 nogood 122
464 v2 keeps n122
464 v2 out 0:n14 1:n110 2:n122
464 v2 makes n123
464 v2 sends v1 nogood 123
465 v2>v1 nogood 123
465 v1 keeps n123
465 v1 out 0:n123
465 v1 takes 1
465 v1 sends v2 ok 1
465 v1 sends v3 ok 1
465 v1 sends v7 ok 1
466 v1>v2 ok 1
466 v2 knows v1=1
466 v2 forgets n14
466 v2 forgets n110
466 v2 forgets n122
466 v2 out
466 v2 takes 2
466 v2 sends v3 ok 2
466 v2 sends v4 ok 2
466 v2 sends v5 ok 2
466 v2 sends v7 ok 2
466 v2 sends v8 ok 2
466 v2 sends v9 ok 2
466 v2 sends v13 ok 2
467 v2>v5 ok 2
467 v5 knows v2=2
468 v2>v9 ok 2
468 v9 knows v2=2
468 v9 makes n124
468 v9 sends v8 nogood 124
469 v2>v7 ok 2
469 v7 knows v2=2
469 v7 makes n125
469 v7 sends v2 nogood 125
470 v2>v3 ok 2
470 v3 knows v2=2
471 v1>v3 ok 1
471 v3 knows v1=1
472 v7>v2 nogood 125
472 v2 refuses n125
473 v1>v7 ok 1
473 v7 knows v1=1
473 v7 out 0:c4
473 v7 takes 1
473 v7 sends v8 ok 1
474 v2>v8 ok 2
474 v8 knows v2=2
474 v8 makes n126
474 v8 sends v7 nogood 126
475 v9>v8 nogood 124
475 v8 refuses n124
476 v7>v8 ok 1
476 v8 knows v7=1
476 v8 out 0:c5
476 v8 takes 1
476 v8 sends v9 ok 1
476 v8 sends v10 ok 1
476 v8 sends v11 ok 1
476 v8 sends v12 ok 1
477 v8>v10 ok 1
477 v10 knows v8=1
477 v10 forgets n2
477 v10 forgets n99
477 v10 out 0:c7
477 v10 takes 1
477 v10 sends v11 ok 1
477 v10 sends v12 ok 1
478 v8>v12 ok 1
478 v12 knows v8=1
478 v12 out 0:c9
479 v8>v11 ok 1
479 v11 knows v8=1
479 v11 forgets n21
479 v11 out 1:c8
479 v11 takes 0
479 v11 sends v12 ok 0
480 v10>v11 ok 1
480 v11 knows v10=1
481 v8>v7 nogood 126
481 v7 refuses n126
482 v11>v12 ok 0
482 v12 knows v11=0
482 v12 out 1:c9
482 v12 takes 0
483 v8>v9 ok 1
483 v9 knows v8=1
483 v9 forgets n4
483 v9 forgets n104
483 v9 out 1:c6
483 v9 takes 0
483 v9 sends v10 ok 0
484 v2>v13 ok 2
484 v13 knows v2=2
485 v9>v10 ok 0
485 v10 knows v9=0
485 v10 out 1:c7
485 v10 takes 0
485 v10 sends v11 ok 0
485 v10 sends v12 ok 0
486 v2>v4 ok 2
486 v4 knows v2=2
487 v10>v11 ok 0
487 v11 knows v10=0
488 v10>v12 ok 1
488 v12 knows v10=1
489 v10>v12 ok 0
489 v12 knows v10=0
489 v12 out 0:c1 1:c9
489 v12 makes n127
489 v12 sends v11 nogood 127
490 v12>v11 nogood 127
490 v11 keeps n127
490 v11 out 0:n127 1:c8
490 v11 makes n128
490 v11 sends v10 nogood 128
491 v11>v10 nogood 128
491 v10 keeps n128
491 v10 out 0:n128 1:c7
491 v10 makes n129
491 v10 sends v9 nogood 129
492 v10>v9 nogood 129
492 v9 keeps n129
492 v9 out 0:n129 1:c6
492 v9 makes n130
492 v9 sends v8 nogood 130
493 v9>v8 nogood 130
493 v8 keeps n130
493 v8 out 0:c5 1:n130
493 v8 makes n131
493 v8 sends v7 nogood 131
494 v8>v7 nogood 131
494 v7 keeps n131
494 v7 out 0:c4 1:n131
494 v7 makes n132
494 v7 sends v3 nogood 132
495 v7>v3 nogood 132
495 v3 keeps n132
495 v3 out 2:n132
495 v3 takes 0
495 v3 sends v4 ok 0
495 v3 sends v5 ok 0
495 v3 sends v7 ok 0
495 v3 sends v8 ok 0
495 v3 sends v9 ok 0
495 v3 sends v10 ok 0
495 v3 sends v11 ok 0
495 v3 sends v13 ok 0
495 v3 sends v14 ok 0
495 v3 sends v15 ok 0
496 v3>v15 ok 0
496 v15 knows v3=0
496 v15 out 1:c12
496 v15 takes 0
496 v15 sends v16 ok 0
497 v3>v5 ok 0
497 v5 knows v3=0
498 v3>v14 ok 0
498 v14 knows v3=0
499 v3>v4 ok 0
499 v4 knows v3=0
500 v3>v13 ok 0
500 v13 knows v3=0
501 v3>v8 ok 0
501 v8 knows v3=0
501 v8 forgets n130
501 v8 out 0:c5
501 v8 takes 1
501 v8 sends v9 ok 1
501 v8 sends v10 ok 1
501 v8 sends v11 ok 1
501 v8 sends v12 ok 1
502 v3>v7 ok 0
502 v7 knows v3=0
502 v7 forgets n131
502 v7 out 0:c4
502 v7 takes 1
502 v7 sends v8 ok 1
503 v8>v12 ok 1
503 v12 knows v8=1
503 v12 makes n133
503 v12 sends v11 nogood 133
504 v8>v11 ok 1
504 v11 knows v8=1
504 v11 makes n134
504 v11 sends v10 nogood 134
505 v12>v11 nogood 133
505 v11 refuses n133
506 v3>v9 ok 0
506 v9 knows v3=0
506 v9 forgets n129
506 v9 out 1:c6
506 v9 takes 0
506 v9 sends v10 ok 0
507 v3>v10 ok 0
507 v10 knows v3=0
507 v10 forgets n128
507 v10 out 1:c7
507 v10 takes 0
507 v10 sends v11 ok 0
507 v10 sends v12 ok 0
508 v10>v12 ok 0
508 v12 knows v10=0
508 v12 makes n135
508 v12 sends v11 nogood 135
509 v10>v11 ok 0
509 v11 knows v10=0
509 v11 makes n136
509 v11 sends v10 nogood 136
510 v12>v11 nogood 135
510 v11 refuses n135
511 v7>v8 ok 1
511 v8 knows v7=1
512 v9>v10 ok 0
512 v10 knows v9=0
513 v11>v10 nogood 134
513 v10 knows v8=1
513 v10 refuses n134
514 v8>v10 ok 1
515 v8>v9 ok 1
515 v9 knows v8=1
516 v11>v10 nogood 136
516 v10 refuses n136
517 v15>v16 ok 0
517 v16 knows v15=0
517 v16 out 1:c13
517 v16 takes 0
517 v16 sends v17 ok 0
517 v16 sends v18 ok 0
517 v16 sends v19 ok 0
517 v16 sends v20 ok 0
518 v16>v18 ok 0
518 v18 knows v16=0
519 v16>v20 ok 0
519 v20 knows v16=0
519 v20 out 0:c2
520 v16>v19 ok 0
520 v19 knows v16=0
521 v16>v17 ok 0
521 v17 knows v16=0
522 v3>v11 ok 0
522 v11 knows v3=0
522 v11 makes n137
522 v11 sends v10 nogood 137
523 v11>v10 nogood 137
523 v10 keeps n137
523 v10 out 0:n137 1:c7
523 v10 makes n138
523 v10 sends v9 nogood 138
524 v10>v9 nogood 138
524 v9 keeps n138
524 v9 out 0:n138 1:c6
524 v9 makes n139
524 v9 sends v8 nogood 139
525 v9>v8 nogood 139
525 v8 keeps n139
525 v8 out 0:c5 1:n139
525 v8 makes n140
525 v8 sends v7 nogood 140
526 v8>v7 nogood 140
526 v7 keeps n140
526 v7 out 0:c4 1:n140
526 v7 makes n141
526 v7 sends v3 nogood 141
527 v7>v3 nogood 141
527 v3 keeps n141
527 v3 out 0:n141 2:n132
527 v3 takes 1
527 v3 sends v4 ok 1
527 v3 sends v5 ok 1
527 v3 sends v7 ok 1
527 v3 sends v8 ok 1
527 v3 sends v9 ok 1
527 v3 sends v10 ok 1
527 v3 sends v11 ok 1
527 v3 sends v13 ok 1
527 v3 sends v14 ok 1
527 v3 sends v15 ok 1
528 v3>v8 ok 1
528 v8 knows v3=1
528 v8 forgets n139
528 v8 out 0:c5
528 v8 takes 1
528 v8 sends v9 ok 1
528 v8 sends v10 ok 1
528 v8 sends v11 ok 1
528 v8 sends v12 ok 1
529 v8>v11 ok 1
529 v11 knows v8=1
529 v11 makes n142
529 v11 sends v10 nogood 142
530 v8>v10 ok 1
530 v10 knows v8=1
530 v10 makes n143
530 v10 sends v9 nogood 143
531 v8>v9 ok 1
531 v9 knows v8=1
531 v9 makes n144
531 v9 sends v8 nogood 144
532 v3>v5 ok 1
532 v5 knows v3=1
533 v3>v10 ok 1
533 v10 knows v3=1
533 v10 forgets n137
533 v10 out 1:c7
533 v10 takes 0
533 v10 sends v11 ok 0
533 v10 sends v12 ok 0
534 v3>v9 ok 1
534 v9 knows v3=1
534 v9 forgets n138
534 v9 out 1:c6
534 v9 takes 0
534 v9 sends v10 ok 0
535 v8>v12 ok 1
535 v12 knows v8=1
535 v12 makes n145
535 v12 sends v11 nogood 145
536 v10>v11 ok 0
536 v11 knows v10=0
536 v11 makes n146
536 v11 sends v10 nogood 146
537 v3>v7 ok 1
537 v7 knows v3=1
537 v7 forgets n140
537 v7 out 0:c4
537 v7 takes 1
537 v7 sends v8 ok 1
538 v3>v13 ok 1
538 v13 knows v3=1
539 v11>v10 nogood 142
539 v10 refuses n142
540 v10>v12 ok 0
540 v12 knows v10=0
540 v12 makes n147
540 v12 sends v11 nogood 147
541 v9>v10 ok 0
541 v10 knows v9=0
542 v9>v8 nogood 144
542 v8 refuses n144
543 v3>v14 ok 1
543 v14 knows v3=1
544 v3>v15 ok 1
544 v15 knows v3=1
545 v3>v4 ok 1
545 v4 knows v3=1
546 v3>v11 ok 1
546 v11 knows v3=1
546 v11 out 0:c8
546 v11 takes 1
546 v11 sends v12 ok 1
547 v11>v12 ok 1
547 v12 knows v11=1
547 v12 out 0:c1
547 v12 takes 1
548 v12>v11 nogood 145
548 v11 refuses n145
549 v7>v8 ok 1
549 v8 knows v7=1
550 v11>v10 nogood 146
550 v10 refuses n146
551 v10>v9 nogood 143
551 v9 refuses n143
552 v12>v11 nogood 147
552 v11 refuses n147
end solved
