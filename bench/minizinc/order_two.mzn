% The order of two stages: x before the demand, y[s] behind it, in each scenario s of weight 1.
set of int: S = 1..2;
array[S] of int: d = [1, 3];
var 0..5: x;
array[S] of var 0..3: y;
constraint forall(s in S) (y[s] <= d[s] /\ y[s] <= x);
var int: worth = sum(s in S) (4*y[s] - 3*x);
solve maximize worth;
output ["value=\(worth)\n"];
