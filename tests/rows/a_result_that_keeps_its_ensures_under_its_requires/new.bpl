procedure p(b: bool) returns (r: bool) requires b; ensures r == b; { r := true; }
