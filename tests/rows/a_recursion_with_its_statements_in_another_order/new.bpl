procedure f(n: int) returns (r: int) { var s: int; var t: int; if (n <= 0) { r := 0; return; } t := n; s := n - 1; call r := f(s); r := r + t; assert r >= 0; }
