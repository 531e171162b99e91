% Books of two quarters: what is printed for the second one follows the demand of the first.
set of int: S = 1..6;
array[S] of int: d = [100, 101, 102, 103, 104, 105];
var 0..210: x1;
array[S] of var 0..210: x2;
constraint 5 * 6 * sum(s in S) (x1 >= d[s]) >= 4 * 36;
constraint 5 * sum(s, r in S) (x1 - d[s] + x2[s] - d[r] >= 0) >= 4 * 36;
var int: left = sum(s, r in S) (max(x1 - d[s], 0) + max(x1 - d[s] + x2[s] - d[r], 0));
solve minimize left;
output ["value=\(left)\n"];
