function array[int] of var int: drcp_as_numbers(array[int] of var bool: bs) = [bool2int(b) | b in bs];

% The total is a variable here, and a constant in int_lin_eq.
predicate bool_lin_eq(array[int] of int: as, array[int] of var bool: bs, var int: total) =
  int_lin_eq(array1d(as) ++ [-1], drcp_as_numbers(bs) ++ [total], 0);

predicate bool_lin_le(array[int] of int: as, array[int] of var bool: bs, int: limit) =
  int_lin_le(as, drcp_as_numbers(bs), limit);

predicate bool_lin_eq_reif(array[int] of int: as, array[int] of var bool: bs, var int: total, var bool: r) =
  int_lin_eq_reif(array1d(as) ++ [-1], drcp_as_numbers(bs) ++ [total], 0, r);

predicate bool_lin_le_reif(array[int] of int: as, array[int] of var bool: bs, int: limit, var bool: r) =
  int_lin_le_reif(as, drcp_as_numbers(bs), limit, r);
