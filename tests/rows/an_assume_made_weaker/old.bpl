procedure p(x: int) { assume x > 5; assert x > 5; }
