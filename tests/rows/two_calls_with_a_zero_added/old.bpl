procedure f(x: int) returns (y: int) {
  assert x != 3;
  y := x + 1;
}
procedure g(x: int) returns (y: int) {
  y := x;
  call y := f(y);
  call y := f(y);
  assert y >= 0;
}
