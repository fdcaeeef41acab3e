procedure f(x: int) returns (y: int) {
  y := 1 + x;
}
procedure g(x: int) returns (y: int) {
  y := x;
  call y := f(0 + y);
  call y := f(0 + y);
  call y := f(0 + y);
  call y := f(0 + y);
  call y := f(0 + y);
  call y := f(0 + y);
  call y := f(0 + y);
  call y := f(0 + y);
  assert !(y == 7);
}
