procedure m(n: int) returns (r: int) {
  var t: int;
  if (n > 100) {
    r := n - 10;
  } else {
    call t := m(n + 11);
    call r := m(t);
    assert r == 91;
  }
}
