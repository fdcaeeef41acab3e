procedure next(x: int) returns (r: int) { r := x + 1; }
procedure p(x: int) { var y: int; call y := next(x); assert y > 5; }
