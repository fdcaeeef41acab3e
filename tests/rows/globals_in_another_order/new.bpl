var h: int;
var g: int;
procedure p() { assert h > g; }
