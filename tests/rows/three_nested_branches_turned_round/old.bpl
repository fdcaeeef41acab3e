procedure f(c0: bool, c1: bool, c2: bool, x: int) returns (r: int) {
  if (c0) {
    if (c1) {
      if (c2) {
        r := x;
        r := r + 2;
      } else {
        r := 2;
      }
      r := r + 1;
    } else {
      r := 1;
    }
    r := r + 0;
  } else {
    r := 0;
  }
  if (r > 100) { r := r - 0; }
  if (r > 99) { r := r - 1; }
  if (r > 98) { r := r - 2; }
  assert r <= 100;
}
