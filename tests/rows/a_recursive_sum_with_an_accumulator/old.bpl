procedure sum(n: int, acc: int) returns (r: int)
{
  var next: int;
  r := acc;
  if (n > 0) {
    next := acc + n;
    call r := sum(n - 1, next);
  }
  assert r >= acc;
}
