procedure f(b: bool) { assert b; }
