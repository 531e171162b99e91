% The knapsack of thirty items.
set of int: I = 1..30;
array[I] of int: weight = [12, 7, 19, 4, 15, 9, 22, 6, 11, 17, 3, 14, 8, 20, 5, 13, 10, 16, 18, 21, 23, 2, 24, 25, 26, 27, 28, 29, 31, 33];
array[I] of int: worth = [25, 13, 41, 7, 30, 20, 45, 11, 24, 36, 6, 27, 18, 43, 9, 28, 19, 33, 40, 44, 47, 5, 50, 51, 55, 56, 57, 61, 64, 69];
array[I] of var 0..1: take;
constraint sum(i in I) (weight[i]*take[i]) <= 150;
var int: total = sum(i in I) (worth[i]*take[i]);
solve maximize total;
output ["value=\(total)\n"];
