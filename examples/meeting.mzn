% Three people agree on the hours of two meetings. Each keeps a calendar of their own: nobody sees another's.
% Anna goes to both meetings, which are in different towns, two hours apart.
var {9,10,14,15}: anna_plan;
var {9,10,14,15}: anna_review;
var {10,11,14}: ben_plan;
var {9,11,15}: cleo_review;

constraint anna_plan = ben_plan;
constraint anna_review = cleo_review;
constraint anna_plan - anna_review >= 2 \/ anna_review - anna_plan >= 2;

solve satisfy;
