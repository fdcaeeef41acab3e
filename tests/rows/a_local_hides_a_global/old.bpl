var g: int;
procedure p() { var g: int; g := 5; assert g == 5; }
