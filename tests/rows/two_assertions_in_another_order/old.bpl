procedure p(a: bool, b: bool) { assert a; assert b; }
