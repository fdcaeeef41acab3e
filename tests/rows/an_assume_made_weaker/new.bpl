procedure p(x: int) { assume x > 4; assert x > 5; }
