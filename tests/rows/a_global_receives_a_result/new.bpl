var g: int;
procedure q() returns (r: int)
  modifies g;
{ r := 2; g := 3; }
procedure p()
  modifies g;
{ call g := q(); assert g == 2; }
