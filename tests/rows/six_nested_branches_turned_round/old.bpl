procedure f(c0: bool, c1: bool, c2: bool, c3: bool, c4: bool, c5: bool, x: int) returns (r: int) {
  if (c0) {
    if (c1) {
      if (c2) {
        if (c3) {
          if (c4) {
            if (c5) {
              r := x;
              r := r + 5;
            } else {
              r := 5;
            }
            r := r + 4;
          } else {
            r := 4;
          }
          r := r + 3;
        } else {
          r := 3;
        }
        r := r + 2;
      } else {
        r := 2;
      }
      r := r + 1;
    } else {
      r := 1;
    }
    r := r + 0;
  } else {
    r := 0;
  }
  if (r > 100) { r := r - 0; }
  if (r > 99) { r := r - 1; }
  if (r > 98) { r := r - 2; }
  if (r > 97) { r := r - 3; }
  if (r > 96) { r := r - 4; }
  if (r > 95) { r := r - 5; }
  assert r <= 100;
}
