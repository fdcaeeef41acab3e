procedure p(b: bool) { assert b; assert !b; }
