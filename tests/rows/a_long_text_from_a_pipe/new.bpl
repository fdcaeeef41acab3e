procedure f(x: int) { assert 5 < x; }
