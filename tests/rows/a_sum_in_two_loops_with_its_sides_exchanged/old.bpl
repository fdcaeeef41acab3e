procedure f(n: int) returns (s: int) {
  var i: int;
  var j: int;
  i := 0;
  s := 0;
  while (i < n) {
    j := 0;
    while (j < i) {
      s := s + j;
      j := j + 1;
    }
    i := i + 1;
  }
  assert s >= 0;
}
