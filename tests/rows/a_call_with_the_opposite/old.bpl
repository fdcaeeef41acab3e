procedure c(k: bool) { assert k; } procedure p(x: bool) { call c(x); }
