procedure c(k: int) { assert k < 100; }
procedure p(n: int)
{
  var i: int;
  i := 0;
  while (i < n) {
    call c(i);
    i := i + 1;
  }
}
