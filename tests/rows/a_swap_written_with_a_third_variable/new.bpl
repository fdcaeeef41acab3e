procedure p(a: int, b: int) returns (x: int, y: int) {
  var t: int;
  t := a;
  x := b;
  y := t;
  assert x <= y;
}
