procedure f(x: int) returns (r: int) {
  r := x;
  if (r > 0) { r := r + 1; }
  if (r > 3) { r := r + 2; }
  if (r > 6) { r := r + 3; }
  if (r > 9) { r := r + 4; }
  if (r > 12) { r := r + 5; }
  assert r >= 0;
}
