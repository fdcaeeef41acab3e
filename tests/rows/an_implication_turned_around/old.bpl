procedure p(a: bool, b: bool) { assert a ==> b; assert b <== a; }
