procedure f(a: int, b: int, q: int) returns (r: int) {
  r := q;
  if (a >= 0 - r) { r := r + a - b; }
  if (a >= 0 - r) { r := r + a - b; }
  if (a >= 0 - r) { r := r + a - b; }
  if (a >= 0 - r) { r := r + a - b; }
  if (a >= 0 - r) { r := r + a - b; }
  assert r != 7;
}
