procedure even(n: int) returns (r: bool)
{
  assert n >= 0;
  if (n != 0) { call r := odd(n - 1); } else { r := true; }
}
procedure odd(n: int) returns (r: bool)
{
  assert n >= 0;
  r := false;
  if (n != 0) { call r := even(n - 1); }
}
