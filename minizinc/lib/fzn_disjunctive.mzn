include "drcp_limits.mzn";
include "fzn_cumulative.mzn";

% Tasks of one machine: a resource of capacity 1, of which each task uses 1. A task of no duration may lie anywhere.
% Of not too many tasks the order is said pair by pair too, which finds more than the resource alone.
predicate fzn_disjunctive(array[int] of var int: s, array[int] of var int: d) =
  fzn_cumulative(array1d(s), array1d(d), [1 | task in s], 1) /\
  if length(s) <= drcp_pairs_limit then drcp_ordered_pairs(s, d) else true endif;

predicate drcp_ordered_pairs(array[int] of var int: s, array[int] of var int: d) =
  forall(i, j in index_set(s) where i < j /\ ub(d[i]) > 0 /\ ub(d[j]) > 0)(
    (lb(d[i]) <= 0 /\ d[i] = 0) \/ (lb(d[j]) <= 0 /\ d[j] = 0) \/ s[i] + d[i] <= s[j] \/ s[j] + d[j] <= s[i]
  );
