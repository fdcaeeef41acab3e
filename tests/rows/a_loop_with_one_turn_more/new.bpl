procedure fill(count: int, room: int)
{
  var done: int;
  done := 0;
  while (done <= count) {
    assert done < room;
    done := done + 1;
  }
}
