type t; procedure p() { }
