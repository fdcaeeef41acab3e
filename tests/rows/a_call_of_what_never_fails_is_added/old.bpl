procedure c(k: int) returns (r: int) { r := k; }
procedure p(x: int) { assert x > 0; }
