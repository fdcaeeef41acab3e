procedure f(x: int) returns (y: int) {
  assert x != 3;
  y := x + 1;
}
procedure g(c1: bool, c2: bool, x: int) returns (y: int) {
  y := x;
  if (c1) { call y := f(y); }
  if (c2) { call y := f(y); }
  assert y >= 0;
}
