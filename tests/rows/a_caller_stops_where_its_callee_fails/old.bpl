procedure c(k: int) { assert k > 0; }
procedure p(x: int) { call c(x); assert x > 1; }
