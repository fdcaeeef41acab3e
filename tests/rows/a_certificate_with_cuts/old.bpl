procedure p(x: int) { }
