% Builtins that came with version 2.0 of the compiler: without a body they stay as they are.
predicate bool_clause_reif(array[int] of var bool: as, array[int] of var bool: bs, var bool: b);

% Floats are not read: the front end names the first one of a model.
predicate array_float_maximum(var float: m, array[int] of var float: x);
predicate array_float_minimum(var float: m, array[int] of var float: x);

% To make these two native, put here
%   predicate array_int_maximum(var int: m, array[int] of var int: x);
%   predicate array_int_minimum(var int: m, array[int] of var int: x);
include "drcp_extremes_of_many.mzn";
