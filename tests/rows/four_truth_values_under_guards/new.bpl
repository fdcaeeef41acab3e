procedure f(c1: bool, c2: bool, c3: bool, c4: bool, p: bool) returns (q: bool) {
  q := p;
  if (c1) { q := !q; }
  if (c2) { q := !q; }
  if (c3) { q := !q; }
  if (c4) { q := !q; }
  assert !!q;
}
