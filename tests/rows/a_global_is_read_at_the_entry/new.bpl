var g: bool; procedure p() modifies g; { g := !g; assert old(g); }
