procedure next(x: int) returns (r: int) { r := 1 + x; }
procedure p(x: int) { var y: int; call y := next(x); assert 5 < y; }
