procedure f(n: int) returns (s: int) {
  var i: int;
  i := 0;
  s := 0;
  while (i < n) {
    s := s + i;
    i := i + 1;
  }
  assert s >= 0;
}
