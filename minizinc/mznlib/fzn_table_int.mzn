% Taken as it is: some row of the table is x.
predicate fzn_table_int(array[int] of var int: x, array[int, int] of int: t);
