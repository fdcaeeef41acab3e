procedure p(x: int) { if (*) { } }
