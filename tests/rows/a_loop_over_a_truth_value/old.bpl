procedure p(b: bool) { var i: bool; i := b; while (i) { i := !i; } assert !i; }
