% Taken as it is: whether some row of the table is x.
predicate fzn_table_bool_reif(array[int] of var bool: x, array[int, int] of bool: t, var bool: b);
