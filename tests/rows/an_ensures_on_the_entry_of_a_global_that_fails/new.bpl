var g: int;
procedure p()
  modifies g;
  ensures g == old(g) + 1;
{ g := g + 2; }
