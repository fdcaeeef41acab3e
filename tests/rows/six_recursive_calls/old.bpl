procedure f(x: int) returns (y: int) {
  y := x;
  if (x > 0) {
    call y := f(y - 1);
    call y := f(y - 1);
    call y := f(y - 1);
    call y := f(y - 1);
    call y := f(y - 1);
    call y := f(y - 1);
  }
  assert y <= x;
}
