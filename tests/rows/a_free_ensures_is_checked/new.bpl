procedure p(x: int) returns (r: int)
  ensures r > x;
{ r := 0; }
