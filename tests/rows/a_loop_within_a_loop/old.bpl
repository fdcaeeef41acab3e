procedure p(n: int, room: int)
{
  var i: int;
  var j: int;
  i := 0;
  while (i < n) {
    j := 0;
    while (j < i) {
      assert i + j < room;
      j := j + 1;
    }
    i := i + 1;
  }
}
