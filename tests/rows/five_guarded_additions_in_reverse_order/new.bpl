procedure f(b1: bool, b2: bool, b3: bool, b4: bool, b5: bool, x: int) returns (r: int) {
  r := x;
  if (b5) { r := 5 + r; }
  if (b4) { r := 4 + r; }
  if (b3) { r := 3 + r; }
  if (b2) { r := 2 + r; }
  if (b1) { r := 1 + r; }
}
