% Four tasks go to three workers, each to one; what a worker's task is worth only the worker knows. No worker takes more
% than two tasks. What are they worth together, at the most?
array [1..4, 1..3] of int: worth = [| 3, 5, 2 | 4, 6, 1 | 2, 6, 3 | 5, 7, 4 |];
array [1..4] of var 1..3: worker;
array [1..4] of var 1..7: value;
var 4..28: total;

constraint forall (t in 1..4) (value[t] = worth[t, worker[t]]);
constraint forall (w in 1..3) (sum (t in 1..4) (bool2int(worker[t] = w)) <= 2);
constraint total = sum (value);

solve maximize total;
