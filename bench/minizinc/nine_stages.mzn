% Nine stages: the cell of stage t at a history is x[2^(t-1) + h], where h is the number of what was seen before, one binary digit a stage.
set of int: T = 1..9;
set of int: S = 0..511;
array[T] of int: price = [7, 6, 8, 7, 5, 8, 8, 6, 7];
array[T] of int: cost = [2, 1, 3, 1, 2, 1, 3, 2, 3];
array[T] of int: low = [1, 1, 0, 1, 1, 1, 0, 1, 1];
array[T] of int: high = [3, 2, 1, 3, 3, 2, 1, 3, 3];
array[T] of int: weight = [2, 1, 3, 1, 1, 3, 3, 1, 2];
function int: digit(int: s, int: t) = (s div pow(2, 9 - t)) mod 2;
function int: cell(int: s, int: t) = pow(2, t - 1) + s div pow(2, 10 - t);
function int: demand(int: s, int: t) = if digit(s, t) = 1 then high[t] else low[t] endif;
array[S] of int: mass = array1d(S, [product(t in T) (if digit(s, t) = 1 then weight[t] else 1 endif) | s in S]);
int: all = sum(mass);
array[1..511] of var 0..3: x;
constraint forall(s in S, t in T where s mod pow(2, 10 - t) = 0) (sum(r in 1..t) (x[cell(s, r)]) <= 2*t);
constraint 4 * sum(s in S) (mass[s] * (sum(t in T) (x[cell(s, t)]) >= demand(s, 1))) >= all;
var int: worth = sum(s in S, t in T) (mass[s] * (price[t]*min(x[cell(s, t)], demand(s, t)) - cost[t]*x[cell(s, t)]));
solve maximize worth;
output ["value=\(worth)\n"];
