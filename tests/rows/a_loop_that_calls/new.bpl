procedure c(k: int) { assert k <= 99; }
procedure p(n: int)
{
  var i: int;
  i := 0;
  while (i + 1 <= n) {
    call c(i);
    i := i + 1;
  }
}
