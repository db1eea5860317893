% Six sensors track three targets. A sensor follows one of the targets in its sight, or rests (0). Each target is
% followed by two sensors or more.
array [1..6] of set of int: sight = [{0,1}, {0,1,2}, {0,1,2}, {0,2,3}, {0,2,3}, {0,3}];
array [1..6] of var 0..3: follows;

constraint forall (s in 1..6) (follows[s] in sight[s]);
constraint forall (t in 1..3) (sum (s in 1..6) (bool2int(follows[s] = t)) >= 2);

solve satisfy;
