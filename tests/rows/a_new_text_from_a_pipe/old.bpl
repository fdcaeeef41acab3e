procedure f(x: int) { assert x > 5; }
