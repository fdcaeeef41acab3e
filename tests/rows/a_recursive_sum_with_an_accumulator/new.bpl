procedure sum(n: int, acc: int) returns (r: int)
{
  if (n <= 0) {
    r := acc;
  } else {
    call r := sum(n - 1, n + acc);
  }
  assert acc <= r;
}
