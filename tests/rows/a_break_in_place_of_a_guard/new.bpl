procedure fill(count: int, room: int)
{
  var done: int;
  done := 0;
  while (true) {
    if (done >= count) { break; }
    assert done < room;
    done := done + 1;
  }
}
