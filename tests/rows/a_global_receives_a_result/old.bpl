var g: int;
procedure q() returns (r: int)
  modifies g;
{ g := 1; r := 2; }
procedure p()
  modifies g;
{ call g := q(); assert g == 2; }
