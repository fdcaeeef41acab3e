var g: int;
procedure p()
  modifies g;
  ensures old(g) == g - 1;
{ g := 1 + g; }
