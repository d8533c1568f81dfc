% A rectangle of 24 tiles that is not a square, with the shortest sides.
var 1..30: x;
var 1..30: y;
var int: cost;
constraint x * y = 24 /\ x < y;
constraint cost = x + y;
solve minimize cost;
