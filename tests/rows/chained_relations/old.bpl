procedure p(a: int) { assert 0 < a < 9; }
