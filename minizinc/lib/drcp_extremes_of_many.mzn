% The extreme bounds all numbers, and is reached by one of them.
predicate array_int_maximum(var int: m, array[int] of var int: x) =
  forall(number in x)(m >= number) /\ exists(number in x)(m <= number);

predicate array_int_minimum(var int: m, array[int] of var int: x) =
  forall(number in x)(m <= number) /\ exists(number in x)(m >= number);
