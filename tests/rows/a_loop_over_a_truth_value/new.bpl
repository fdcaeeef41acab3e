procedure p(b: bool) { var i: bool; i := b; while (i) { i := false; } assert !i; }
