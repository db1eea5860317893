% What the solver does not take, said by what it takes.

% A set variable is a list of Booleans, one for each value that it may hold.
include "nosets.mzn";

% Whether the power is defined, and no greater than an integer may be.
function bool: abt_has_power(int: base, int: exponent) =
  if exponent <= 0 then base != 0 \/ exponent = 0
  elseif abs(base) < 2 then true
  else let { float: size = exponent * ln(abs(base)) } in
    size < 43.6 \/ (size < 43.7 /\ pow(abs(base), exponent - 1) <= 9223372036854775807 div abs(base))
  endif;

% A power is looked up in a table; its domain is the list of powers, so it has no value where there is none.
predicate int_pow(var int: x, var int: y, var int: z) =
  assert(has_bounds(x) /\ has_bounds(y), "abt: the base and the exponent of a power need bounds",
  let {
    set of int: powers = { pow(a, b) | a in dom(x), b in dom(y) where abt_has_power(a, b) };
    int: none = min(powers union {0}) - 1;
    array[int, int] of int: table = array2d(lb(x)..ub(x), lb(y)..ub(y),
      [ if abt_has_power(a, b) then pow(a, b) else none endif | a in lb(x)..ub(x), b in lb(y)..ub(y) ]);
  } in z in powers /\ z = table[x, y]);
