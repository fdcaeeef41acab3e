var g: int;
procedure p(x: int)
  modifies g;
{ g := x; assert g > 0; }
