procedure fill(count: int, room: int)
{
  var done: int;
  done := 0;
  while (!(count <= done)) {
    assert done < room;
    done := done + 1;
  }
}
