var g: int;
procedure p() { assert g > 0; }
