var g: int;
procedure q()
  modifies g;
{ g := 2; }
procedure p()
  modifies g;
{ call q(); assert g == 1; }
