var g: bool; procedure p() modifies g; { assert g; g := !g; }
