% Taken as it is: whether some row of the table is x.
predicate fzn_table_int_reif(array[int] of var int: x, array[int, int] of int: t, var bool: b);
