var g: int;
procedure q()
  modifies g;
{ g := g + 1; }
procedure p()
  modifies g;
{ call q(); assert g > 0; }
