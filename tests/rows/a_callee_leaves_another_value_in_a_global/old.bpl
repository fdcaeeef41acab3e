var g: int;
procedure q()
  modifies g;
{ g := 1; }
procedure p()
  modifies g;
{ call q(); assert g == 1; }
