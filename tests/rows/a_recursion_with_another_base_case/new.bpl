procedure f(n: int) returns (r: int)
{
  if (n <= 0) {
    r := -1;
  } else {
    call r := f(n - 1);
    r := r + 1;
  }
  assert r >= 0;
}
