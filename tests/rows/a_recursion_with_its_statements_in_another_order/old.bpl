procedure f(n: int) returns (r: int) { var a: int; var b: int; if (n <= 0) { r := 0; return; } a := n - 1; b := n; call r := f(a); r := r + b; assert r >= 0; }
