% Taken as it is: some row of the table is x.
predicate fzn_table_bool(array[int] of var bool: x, array[int, int] of bool: t);
