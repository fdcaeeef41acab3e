procedure f(c0: bool, c1: bool, c2: bool, c3: bool, c4: bool, c5: bool, x: int) returns (r: int) {
  if (!c0) {
    r := 0;
  } else {
    if (!c1) {
      r := 1;
    } else {
      if (!c2) {
        r := 2;
      } else {
        if (!c3) {
          r := 3;
        } else {
          if (!c4) {
            r := 4;
          } else {
            if (!c5) {
              r := 5;
            } else {
              r := x;
              r := 5 + r;
            }
            r := 4 + r;
          }
          r := 3 + r;
        }
        r := 2 + r;
      }
      r := 1 + r;
    }
    r := 0 + r;
  }
  if (r > 100) { r := 0 - 0 + r; }
  if (r > 99) { r := 0 - 1 + r; }
  if (r > 98) { r := 0 - 2 + r; }
  if (r > 97) { r := 0 - 3 + r; }
  if (r > 96) { r := 0 - 4 + r; }
  if (r > 95) { r := 0 - 5 + r; }
  assert !(r >= 101);
}
