procedure p(b: bool) { assert b; }
