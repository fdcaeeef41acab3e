var g: int;
procedure q()
  modifies g;
{ g := 1 + g; }
procedure p()
  modifies g;
{ call q(); assert 0 < g; }
