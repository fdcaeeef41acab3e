procedure p(x: int) returns (y: int) {
  y := x;
  assert y >= 0;
}
