var g: int, h: int;
procedure q()
  modifies h;
{ h := 2; }
procedure p()
  modifies h;
{ call q(); assert g == old(g); }
