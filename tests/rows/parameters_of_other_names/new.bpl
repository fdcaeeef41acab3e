procedure p(x: bool, y: bool) { assert y ==> x; }
