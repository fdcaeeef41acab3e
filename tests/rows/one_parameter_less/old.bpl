procedure p(b: bool) { }
