procedure f(x: int) returns (r: int) {
  r := x;
  if (r > 0) { r := r + 1; }
  if (r > 3) { r := r + 2; }
  if (r > 6) { r := r + 3; }
  if (r > 9) { r := r + 4; }
  if (r > 12) { r := r + 5; }
  if (r > 15) { r := r + 6; }
  if (r > 18) { r := r + 7; }
  if (r > 21) { r := r + 8; }
  if (r > 24) { r := r + 9; }
  if (r > 27) { r := r + 10; }
  assert r >= 0;
}
