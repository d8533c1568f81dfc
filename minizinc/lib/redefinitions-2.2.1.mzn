% Powers, of which version 2.2.1 of the compiler brought one with a fixed exponent. To make them native, put here
%   predicate int_pow_fixed(var int: x, int: y, var int: z);
include "drcp_power.mzn";
