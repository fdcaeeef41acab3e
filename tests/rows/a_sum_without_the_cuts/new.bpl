procedure p(x: int) { assert x + x != 1; }
