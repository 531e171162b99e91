% 8 queens.
include "alldifferent.mzn";
set of int: R = 1..8;
array[R] of var 1..8: row;
constraint alldifferent(row);
constraint alldifferent([row[i] + i | i in R]);
constraint alldifferent([row[i] - i | i in R]);
solve satisfy;
output ["value=0\n"];
