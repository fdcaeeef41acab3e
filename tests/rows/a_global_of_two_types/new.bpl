var g: bool; procedure p() { }
