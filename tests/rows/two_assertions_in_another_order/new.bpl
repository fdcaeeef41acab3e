procedure p(c: bool, d: bool) { assert d; assert c; }
