var g: int;
procedure p() { assert old(g) == g; }
