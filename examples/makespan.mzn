% Three jobs of different customers go over a cutter and then a press, which run one job at a time each. When is the
% last of them done, at the earliest?
array [1..3] of int: cutting = [2, 1, 3];
array [1..3] of int: pressing = [1, 3, 2];
array [1..3] of var 0..9: cut;
array [1..3] of var 0..9: press;
var 0..12: done;

constraint forall (j in 1..3) (cut[j] + cutting[j] <= press[j] /\ press[j] + pressing[j] <= done);
constraint forall (i, j in 1..3 where i < j) (cut[i] + cutting[i] <= cut[j] \/ cut[j] + cutting[j] <= cut[i]);
constraint forall (i, j in 1..3 where i < j) (press[i] + pressing[i] <= press[j] \/ press[j] + pressing[j] <= press[i]);

solve minimize done;
