% How many values the smaller of two factors may have, where their product is said value by value.
int: drcp_product_limit = 2000;

% How many entries a table of powers may have.
int: drcp_power_limit = 100000;

% Up to how many tasks of one machine their order is said pair by pair, beside the native resource.
int: drcp_pairs_limit = 60;

% The values from the least to the greatest one, whether or not the domain has holes.
function set of int: drcp_hull(var int: x) =
  assert(
    has_bounds(x),
    "drcp: a variable without bounds in a product, a quotient, a rest or a power. Give it some;"
      ++ " in place of product([x, y, z]) write x * y * z.",
    lb(x)..ub(x)
  );
