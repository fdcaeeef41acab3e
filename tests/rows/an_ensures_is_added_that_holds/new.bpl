procedure p(x: int) returns (r: int)
  ensures r >= 0;
  ensures r >= x;
{ r := x; if (r < 0) { r := 0; } }
