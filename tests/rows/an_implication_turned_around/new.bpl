procedure p(a: bool, b: bool) { assert !b ==> !a; }
