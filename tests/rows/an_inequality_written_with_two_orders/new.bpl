procedure p(x: int, y: int) { assert x < y || x > y; }
