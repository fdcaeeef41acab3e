var g: int, h: int;
procedure q()
  modifies h;
{ h := 1; }
procedure p()
  modifies h;
{ call q(); }
