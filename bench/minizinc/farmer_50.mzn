% The farmer, in plots of 10 acres.
int: plots = 50;
array[1..3] of int: y = [4, 5, 6];
var 0..plots: w;
var 0..plots: c;
var 0..plots: b;
constraint w + c + b <= plots;
var -10000000..10000000: worth = sum(s in 1..3) (
    min(170*(5*y[s]*w - 200), 238*(5*y[s]*w - 200))
  + min(150*(6*y[s]*c - 240), 210*(6*y[s]*c - 240))
  + min(36*(40*y[s]*b), 10*(40*y[s]*b) + 156000)
  - 1500*w - 2300*c - 2600*b);
solve maximize worth;
output ["value=\(worth)\n"];
