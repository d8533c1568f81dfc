% Native: the numbers at all positions differ.
predicate fzn_all_different_int(array[int] of var int: x);
