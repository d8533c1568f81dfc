include "fzn_disjunctive.mzn";

% Where each task lasts, as disjunctive. Else one of each two tasks ends before the other starts.
predicate fzn_disjunctive_strict(array[int] of var int: s, array[int] of var int: d) =
  if lb_array(d) > 0 then fzn_disjunctive(s, d)
  else
    forall(i, j in index_set(s) where i < j)(s[i] + d[i] <= s[j] \/ s[j] + d[j] <= s[i])
  endif;
