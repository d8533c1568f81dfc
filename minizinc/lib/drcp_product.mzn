include "drcp_limits.mzn";

% a * b = c, said for each value of the factor that has fewer of them.
predicate int_times(var int: a, var int: b, var int: c) =
  if is_fixed(a) then fix(a) * b = c
  elseif is_fixed(b) then fix(b) * a = c
  elseif card(drcp_hull(a)) <= card(drcp_hull(b)) then drcp_product_by_values(a, b, c)
  else drcp_product_by_values(b, a, c)
  endif;

% The least and the greatest product lie at the ends of the factors. That is said outright, since the product may be a
% factor of another one.
predicate drcp_within_ends(var int: a, var int: b, var int: product) =
  let { array[int] of int: ends = [x * y | x in {lb(a), ub(a)}, y in {lb(b), ub(b)}] } in
  product >= min(ends) /\ product <= max(ends);

% The multiple of `other` that the value of `few` chooses is the product.
predicate drcp_product_by_values(var int: few, var int: other, var int: product) =
  assert(
    card(drcp_hull(few)) <= drcp_product_limit,
    "drcp: a product of two variables, of " ++ show(drcp_hull(few)) ++ " and " ++ show(drcp_hull(other))
      ++ ": neither has at most " ++ show(drcp_product_limit) ++ " values. Give one of them tighter bounds."
  ) /\
  drcp_within_ends(few, other, product) /\
  let {
    array [drcp_hull(few)] of var int: multiples =
      array1d(drcp_hull(few), [drcp_multiple(other, value, value in dom(few)) | value in drcp_hull(few)]);
  } in multiples[few] = product /\ drcp_between_multiples(few, other, product);

% Where the sign of `other` is known, bounds on the product cut it too.
predicate drcp_between_multiples(var int: few, var int: other, var int: product) =
  if lb(other) >= 0 then lb(few) * other <= product /\ product <= ub(few) * other
  elseif ub(other) <= 0 then ub(few) * other <= product /\ product <= lb(few) * other
  else true
  endif;

% value * other; 0 for a value that is not taken.
function var int: drcp_multiple(var int: other, int: value, bool: taken) =
  if taken then value * other else 0 endif;
