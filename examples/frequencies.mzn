% Five transmitters, each run by its own operator, share six channels. Neighbours are at least two channels apart.
array [1..5] of var 1..6: channel;
array [1..6, 1..2] of int: neighbours = [| 1, 2 | 1, 3 | 2, 3 | 2, 4 | 3, 5 | 4, 5 |];

constraint forall (k in 1..6) (abs(channel[neighbours[k, 1]] - channel[neighbours[k, 2]]) >= 2);

solve satisfy;
