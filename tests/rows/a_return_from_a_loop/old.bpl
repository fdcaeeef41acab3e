procedure p(n: int)
{
  var i: int;
  i := 0;
  while (i < n) {
    if (i > 5) { return; }
    i := i + 1;
  }
  assert n <= 5;
}
