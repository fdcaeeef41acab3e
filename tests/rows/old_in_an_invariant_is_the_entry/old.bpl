var g: int;
procedure p(n: int)
  modifies g;
{
  g := g + 1;
  while (g < n)
    invariant old(g) <= n;
  {
    g := g + 1;
  }
}
