% The rota: which days are busy is one of 16 cases, each with its weight of 256. A day is busy in 1 case of 4.
set of int: N = 1..3;
set of int: D = 1..4;
set of int: S = 0..15;
array[D] of int: quiet = [2, 1, 1, 2];
array[N, D] of int: cost = [| 4, 3, 5, 6 | 5, 5, 4, 7 | 6, 7, 6, 9 |];
array[S, D] of int: busy = array2d(S, D, [(s div pow(2, 4 - t)) mod 2 | s in S, t in D]);
array[S] of int: weight = array1d(S, [product(t in D) (if busy[s, t] = 1 then 1 else 3 endif) | s in S]);
array[N, D] of var 0..1: on;
constraint forall(i in N, t in 1..2) (not (on[i, t] = 1 /\ on[i, t + 1] = 1 /\ on[i, t + 2] = 1));
constraint forall(t in D) (8 * sum(s in S) (weight[s] * (sum(i in N) (on[i, t]) >= quiet[t] + busy[s, t])) >= 5 * 256);
constraint 4 * sum(s in S) (weight[s] * (sum(t in D) (sum(i in N) (on[i, t]) < quiet[t] + busy[s, t]) = 0)) >= 256;
var int: total = 256 * sum(i in N, t in D) (cost[i, t]*on[i, t]);
solve minimize total;
output ["value=\(total)\n"];
