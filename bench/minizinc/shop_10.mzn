% The shop of ten tasks.
include "cumulative.mzn";
set of int: T = 1..10;
array[T] of int: hours = [3, 5, 2, 6, 4, 3, 2, 5, 4, 3];
array[T] of int: hands = [2, 3, 4, 2, 3, 1, 5, 2, 3, 4];
array[T] of var 0..30: start;
var 0..30: end;
constraint cumulative(start, hours, hands, 6);
constraint forall(i in T) (start[i] + hours[i] <= end);
constraint start[1] + hours[1] <= start[4];
constraint start[2] + hours[2] <= start[6];
constraint start[3] + hours[3] <= start[8];
constraint start[4] + hours[4] <= start[9];
constraint start[6] + hours[6] <= start[10];
solve minimize end;
output ["value=\(end)\n"];
