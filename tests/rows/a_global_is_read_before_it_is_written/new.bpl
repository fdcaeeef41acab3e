var g: int;
procedure p(x: int)
  modifies g;
{ assert g > 0; g := x; }
