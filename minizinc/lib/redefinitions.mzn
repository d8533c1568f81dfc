% What drcp does not read natively of FlatZinc's builtins, said by what it reads. A builtin becomes native when drcp
% reads it and its line here is removed: without a body the compiler keeps it.
include "drcp_product.mzn";           % int_times
include "drcp_division.mzn";          % int_div, int_mod
include "drcp_bool_linear.mzn";       % bool_lin_eq, bool_lin_le, and their reified forms
include "drcp_parity.mzn";            % array_bool_xor

% Set variables become arrays of Booleans, by the compiler's own file.
include "nosets.mzn";
