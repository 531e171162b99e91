% The rota of five nurses.
include "alldifferent.mzn";
set of int: N = 1..5;
set of int: D = 1..5;
array[N, D] of int: cost = [| 4, 9, 5, 6, 8 | 5, 3, 7, 7, 4 | 6, 7, 2, 9, 6 | 7, 4, 6, 5, 9 | 8, 6, 3, 4, 5 |];
array[N] of int: grade = [1, 2, 2, 3, 1];
array[D] of var N: nurse;
constraint alldifferent(nurse);
constraint grade[nurse[1]] >= grade[nurse[5]];
constraint grade[nurse[2]] + grade[nurse[3]] >= 4;
constraint alldifferent([cost[nurse[d], d] | d in 1..3]);
var int: total = sum(d in D) (cost[nurse[d], d]);
solve minimize total;
output ["value=\(total)\n"];
