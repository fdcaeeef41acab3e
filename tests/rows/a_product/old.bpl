procedure p(x: int) { assert x * 2 < 1; }
