procedure p(a: int, b: int) returns (x: int, y: int) {
  x, y := b, a;
  assert x <= y;
}
