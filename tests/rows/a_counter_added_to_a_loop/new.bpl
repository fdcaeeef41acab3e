var c: int; procedure p(n: int, len: int) modifies c; { var i: int; i := 0; while (i < n) { assert i < len; c := c + 1; i := i + 1; } }
