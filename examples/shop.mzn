% Four jobs of different customers on one machine: each has a length, an earliest start and a deadline, which only
% its own customer knows. Two jobs never run at once.
array [1..4] of int: length = [3, 2, 4, 1];
array [1..4] of int: earliest = [0, 2, 3, 0];
array [1..4] of int: deadline = [10, 7, 10, 4];
array [1..4] of var 0..9: start;

constraint forall (j in 1..4) (start[j] >= earliest[j] /\ start[j] + length[j] <= deadline[j]);
constraint forall (i, j in 1..4 where i < j) (start[i] + length[i] <= start[j] \/ start[j] + length[j] <= start[i]);

solve satisfy;
