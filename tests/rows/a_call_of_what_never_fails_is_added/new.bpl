procedure c(k: int) returns (r: int) { r := k; }
procedure p(x: int) { var y: int; call y := c(x); assert x > 0; }
