procedure p(x: int) { var i: int; i := 0; while (i < x) { i := i + 1; } assert x <= 9; }
