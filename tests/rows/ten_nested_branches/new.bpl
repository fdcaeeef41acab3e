procedure f(c0: bool, c1: bool, c2: bool, c3: bool, c4: bool, c5: bool, c6: bool, c7: bool, c8: bool, c9: bool, x: int) returns (r: int) {
  r := x;
  if (c0) {
  if (c1) {
  if (c2) {
  if (c3) {
  if (c4) {
  if (c5) {
  if (c6) {
  if (c7) {
  if (c8) {
  if (c9) {
  r := r + 1;
  r := r + 10;
  } else { r := r - 10; }
  r := r + 9;
  } else { r := r - 9; }
  r := r + 8;
  } else { r := r - 8; }
  r := r + 7;
  } else { r := r - 7; }
  r := r + 6;
  } else { r := r - 6; }
  r := r + 5;
  } else { r := r - 5; }
  r := r + 4;
  } else { r := r - 4; }
  r := r + 3;
  } else { r := r - 3; }
  r := r + 2;
  } else { r := r - 2; }
  r := r + 1;
  } else { r := r - 1; }
  assert !(7 == r);
}
