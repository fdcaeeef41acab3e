procedure down(n: int)
{
  if (n > 0) { call down(n - 1); } else { assert n >= 0; }
}
