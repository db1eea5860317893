predicate fzn_all_different_int(array[int] of var int: x) =
  forall (i, j in index_set(x) where i < j) (
    if is_fixed(x[i]) then x[j] != fix(x[i])
    elseif is_fixed(x[j]) then x[i] != fix(x[j])
    else int_ne(x[i], x[j]) endif);
