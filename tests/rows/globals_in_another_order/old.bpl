var g: int, h: int;
procedure p() { assert g < h; }
