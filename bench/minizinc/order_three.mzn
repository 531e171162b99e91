% The orders of three stages: the second order and the first sale for each demand of the first period, the second sale for both.
set of int: S = 1..3;
array[S] of int: d = [1, 3, 4];
array[S] of int: w = [1, 2, 1];
var 0..8: x1;
array[S] of var 0..8: x2;
array[S] of var 0..4: y1;
array[S, S] of var 0..4: y2;
constraint forall(s in S) (y1[s] <= d[s] /\ y1[s] <= x1);
constraint forall(s, r in S) (y2[s, r] <= d[r] /\ y1[s] + y2[s, r] <= x1 + x2[s]);
var int: worth = sum(s, r in S) (w[s]*w[r]*(7*y1[s] - 3*x1 + 7*y2[s, r] - 3*x2[s] - (x1 - y1[s])));
solve maximize worth;
output ["value=\(worth)\n"];
