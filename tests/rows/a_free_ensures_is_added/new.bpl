procedure p(x: int) returns (r: int)
  free ensures r > x;
{ r := x; }
