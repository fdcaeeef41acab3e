procedure p(n: int)
{
  var i: int;
  i := 0;
  while (i < n)
    invariant 0 <= i;
  {
    i := i + 1;
  }
}
