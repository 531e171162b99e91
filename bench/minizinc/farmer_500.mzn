% The farmer, in acres.
int: acres = 500;
array[1..3] of int: y = [4, 5, 6];
var 0..acres: w;
var 0..acres: c;
var 0..acres: b;
constraint w + c + b <= acres;
var -10000000..10000000: worth = sum(s in 1..3) (
    min(85*(y[s]*w - 400), 119*(y[s]*w - 400))
  + min(90*(y[s]*c - 400), 126*(y[s]*c - 400))
  + min(144*y[s]*b, 40*y[s]*b + 156000)
  - 150*w - 230*c - 260*b);
solve maximize worth;
output ["value=\(worth)\n"];
