var g: int; procedure p() { }
