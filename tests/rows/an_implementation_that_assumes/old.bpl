procedure p(b: bool); implementation p(c: bool) { assume c; assert c; }
