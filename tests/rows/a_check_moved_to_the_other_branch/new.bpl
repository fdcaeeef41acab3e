procedure p(a: bool, b: bool) { if (b) { } else { assert a; } }
