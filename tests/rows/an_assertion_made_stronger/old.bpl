procedure p(b: bool, c: bool) { assert b; }
