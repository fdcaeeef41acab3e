procedure p() { x := 1; }
