procedure p(x: int) returns (r: int)
  ensures r >= 0;
{ r := 0; if (x < 0) { return; } r := 1; }
