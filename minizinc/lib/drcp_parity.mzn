% An odd number of the Booleans holds.
predicate array_bool_xor(array[int] of var bool: as) = drcp_odd(array1d(as));

% Each place says so of the Booleans up to it.
function var bool: drcp_odd(array[int] of var bool: as) :: promise_total =
  if length(as) = 0 then false
  else
    let {
      array[1..length(as)] of var bool: odd;
      constraint odd[1] = as[1];
      constraint forall(place in 2..length(as))(bool_xor(odd[place - 1], as[place], odd[place]));
    } in odd[length(as)]
  endif;
