% Books of one quarter: in five of the six cases at least the demand is met, as 4 of 5 asks.
set of int: S = 1..6;
array[S] of int: d = [100, 101, 102, 103, 104, 105];
var 0..210: x;
constraint 5 * sum(s in S) (x >= d[s]) >= 4 * 6;
var int: left = sum(s in S) (max(x - d[s], 0));
solve minimize left;
output ["value=\(left)\n"];
