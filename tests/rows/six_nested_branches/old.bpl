procedure f(c0: bool, c1: bool, c2: bool, c3: bool, c4: bool, c5: bool, x: int) returns (r: int) {
  r := x;
  if (c0) {
  if (c1) {
  if (c2) {
  if (c3) {
  if (c4) {
  if (c5) {
  r := r + 1;
  r := r + 6;
  } else { r := r - 6; }
  r := r + 5;
  } else { r := r - 5; }
  r := r + 4;
  } else { r := r - 4; }
  r := r + 3;
  } else { r := r - 3; }
  r := r + 2;
  } else { r := r - 2; }
  r := r + 1;
  } else { r := r - 1; }
  assert r != 7;
}
