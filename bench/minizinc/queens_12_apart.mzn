% 12 queens, by a condition for each two of them.
set of int: R = 1..12;
array[R] of var 1..12: row;
constraint forall(i, j in R where i < j) (row[i] != row[j]);
constraint forall(i, j in R where i < j) (row[i] + i != row[j] + j);
constraint forall(i, j in R where i < j) (row[i] - i != row[j] - j);
solve satisfy;
output ["value=0\n"];
