% The ruler of six marks.
include "alldifferent.mzn";
set of int: M = 1..6;
array[M] of var 0..24: at;
constraint at[1] = 0;
constraint forall(i in 1..5) (at[i] < at[i + 1]);
constraint at[2] < at[6] - at[5];
constraint alldifferent([at[j] - at[i] | i, j in M where i < j]);
var int: total = at[6];
solve minimize total;
output ["value=\(total)\n"];
