include "drcp_limits.mzn";

% A negative exponent is a division of 1 by the power, rounded towards zero.
function int: drcp_power(int: base, int: exponent) =
  if exponent >= 0 then pow(base, exponent)
  elseif base = 0 then 0
  else 1 div pow(base, -exponent)
  endif;

predicate int_pow_fixed(var int: base, int: exponent, var int: power) =
  drcp_check_table(card(drcp_hull(base))) /\
  (exponent < 0 -> base != 0) /\
  array1d(drcp_hull(base), [drcp_power(value, exponent) | value in drcp_hull(base)])[base] = power;

predicate int_pow(var int: base, var int: exponent, var int: power) =
  drcp_check_table(card(drcp_hull(base)) * card(drcp_hull(exponent))) /\
  (if lb(exponent) < 0 then exponent >= 0 \/ base != 0 else true endif) /\
  array2d(
    drcp_hull(base), drcp_hull(exponent),
    [drcp_power(value, times) | value in drcp_hull(base), times in drcp_hull(exponent)]
  )[base, exponent] = power;

predicate drcp_check_table(int: entries) =
  assert(
    entries <= drcp_power_limit,
    "drcp: a power whose table would have " ++ show(entries) ++ " entries; at most "
      ++ show(drcp_power_limit) ++ " are taken. Give its base and its exponent tighter bounds."
  );
