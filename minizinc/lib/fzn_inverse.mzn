include "fzn_all_different_int.mzn";

% Each function, read at a value of the other, gives back the place of that value.
predicate fzn_inverse(array[int] of var int: f, array[int] of var int: invf) =
  forall(i in index_set(f))(invf[f[i]] = i) /\
  forall(j in index_set(invf))(f[invf[j]] = j) /\
  fzn_all_different_int(f) /\ fzn_all_different_int(invf);
