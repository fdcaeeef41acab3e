procedure p(x: int) returns (r: int)
{ r := x; if (r < 0) { r := 0; } }
