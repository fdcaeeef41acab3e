procedure p(x: bool) { }
