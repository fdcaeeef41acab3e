var g: int; procedure p() { g := 1; }
