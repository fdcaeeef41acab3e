var h: int;
procedure p() { assert h > 0; }
