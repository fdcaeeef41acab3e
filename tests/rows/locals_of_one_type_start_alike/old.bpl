procedure p() { var a: int; var b: int; }
