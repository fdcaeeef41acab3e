procedure f(c0: bool, c1: bool, c2: bool, x: int) returns (r: int) {
  if (!c0) {
    r := 0;
  } else {
    if (!c1) {
      r := 1;
    } else {
      if (!c2) {
        r := 2;
      } else {
        r := x;
        r := 2 + r;
      }
      r := 1 + r;
    }
    r := 0 + r;
  }
  if (r > 100) { r := 0 - 0 + r; }
  if (r > 99) { r := 0 - 1 + r; }
  if (r > 98) { r := 0 - 2 + r; }
  assert !(r >= 101);
}
