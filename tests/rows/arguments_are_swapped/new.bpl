procedure c(a: int, b: int) { assert a < b; }
procedure p(x: int, y: int) { call c(y, x); }
