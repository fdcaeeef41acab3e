procedure f(b1: bool, b2: bool, b3: bool, b4: bool, b5: bool, x: int) returns (r: int) {
  r := x;
  if (b1) { r := r + 1; }
  if (b2) { r := r + 2; }
  if (b3) { r := r + 3; }
  if (b4) { r := r + 4; }
  if (b5) { r := r + 5; }
}
