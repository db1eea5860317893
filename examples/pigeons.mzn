% Three pigeons in two holes.
include "alldifferent.mzn";
array [1..3] of var 1..2: hole;

constraint alldifferent(hole);

solve satisfy;
