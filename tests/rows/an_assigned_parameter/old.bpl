procedure p(a: bool) { a := true; }
