procedure p() { var a: int; var b: int; assert a == b; }
