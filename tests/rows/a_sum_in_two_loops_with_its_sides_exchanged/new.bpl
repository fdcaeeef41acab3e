procedure f(n: int) returns (s: int) {
  var i: int;
  var j: int;
  i := 0;
  s := 0;
  while (i < n) {
    j := 0;
    while (j < i) {
      s := j + s;
      j := 1 + j;
    }
    i := 1 + i;
  }
  assert s >= 0;
}
