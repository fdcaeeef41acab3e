procedure p(n: int)
{
  var i: int;
  i := 0;
  while (i < n)
    free invariant i <= n;
  {
    i := i + 1;
  }
}
