procedure p(b: bool); implementation p(c: bool) { assert !c; }
