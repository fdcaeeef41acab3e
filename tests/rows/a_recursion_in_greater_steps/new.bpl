procedure down(n: int)
{
  assert n >= 0;
  if (n > 0) {
    call down(n - 2);
  }
}
