procedure f(n: int) returns (s: int) {
  var i: int;
  i := 0;
  s := 0;
  while (i < n) {
    s := i + s;
    i := 1 + i;
  }
  assert s >= 0;
}
