procedure p(n: int, room: int)
{
  var i: int;
  var j: int;
  i := 0;
  while (n > i) {
    j := 0;
    while (i > j) {
      assert j + i < room;
      j := 1 + j;
    }
    i := 1 + i;
  }
}
