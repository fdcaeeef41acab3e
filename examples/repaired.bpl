procedure fill(count: int, room: int) returns (done: int) {
  done := 0;
  while (count - done >= 1) {
    assert room - done > 0;
    done := 1 + done;
  }
}
