% Native where durations, uses and capacity are constants.
predicate fzn_cumulative(array[int] of var int: s, array[int] of int: d, array[int] of int: r, int: b);

% Else the uses at the start of each task are summed up, and the least demand is posted natively beside that.
predicate fzn_cumulative(array[int] of var int: s, array[int] of var int: d, array[int] of var int: r, var int: b) =
  if is_fixed(d) /\ is_fixed(r) /\ is_fixed(b) then fzn_cumulative(s, fix(d), fix(r), fix(b))
  else
    b >= 0 /\
    forall(task in index_set(s))(drcp_use_at_start(task, s, d, r) <= b) /\
    fzn_cumulative(s, [lb(duration) | duration in d], [lb(use) | use in r], ub(b))
  endif;

% The use at the start of a task: no other moment needs to be looked at, since use rises at starts alone.
function var int: drcp_use_at_start(int: task, array[int] of var int: s, array[int] of var int: d,
                                    array[int] of var int: r) =
  sum(other in index_set(s))(
    r[other]
      * bool2int(if other = task then d[task] > 0 else s[other] <= s[task] /\ s[task] < s[other] + d[other] endif)
  );
