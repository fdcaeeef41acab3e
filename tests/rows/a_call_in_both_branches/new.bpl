procedure c(k: int) { assert k <= 10; }
procedure p(x: int) { if (x > 0) { call c(x); } else { call c(x); } }
