procedure f() { }
procedure p(b: bool) { assert b; }
