procedure p(a: bool, b: bool) { if (b) { assert a; } }
