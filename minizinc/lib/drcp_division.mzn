include "drcp_limits.mzn";

% The quotient is rounded towards zero, and the rest has the sign of the dividend.
predicate int_div(var int: dividend, var int: divisor, var int: quotient) =
  let { var drcp_reach(dividend): rest } in drcp_division(dividend, divisor, quotient, rest);

predicate int_mod(var int: dividend, var int: divisor, var int: rest) =
  let { var drcp_reach(dividend): quotient } in drcp_division(dividend, divisor, quotient, rest);

predicate drcp_division(var int: dividend, var int: divisor, var int: quotient, var int: rest) =
  divisor != 0 /\
  dividend = quotient * divisor + rest /\
  drcp_smaller_size(rest, divisor) /\
  (if lb(dividend) >= 0 then rest >= 0 else dividend >= 0 -> rest >= 0 endif) /\
  (if ub(dividend) <= 0 then rest <= 0 else dividend <= 0 -> rest <= 0 endif);

% |rest| < |divisor|
predicate drcp_smaller_size(var int: rest, var int: divisor) =
  if lb(divisor) > 0 then rest < divisor /\ -rest < divisor
  elseif ub(divisor) < 0 then rest < -divisor /\ -rest < -divisor
  else (divisor > 0 -> rest < divisor /\ -rest < divisor) /\ (divisor < 0 -> rest < -divisor /\ -rest < -divisor)
  endif;

% The numbers whose size is at most that of the number's values.
function set of int: drcp_reach(var int: number) =
  let { int: size = max(abs(min(drcp_hull(number))), abs(max(drcp_hull(number)))) } in -size..size;
