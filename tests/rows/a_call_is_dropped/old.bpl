procedure c(k: int) { assert k <= 10; }
procedure p(x: int) { call c(x); assert x > 0; }
