procedure c(k: int) { assert k > 0; }
procedure p(x: int) { assert x > 1; call c(x); }
