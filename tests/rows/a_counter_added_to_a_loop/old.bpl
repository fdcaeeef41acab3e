procedure p(n: int, len: int) { var i: int; i := 0; while (i < n) { assert i < len; i := i + 1; } }
