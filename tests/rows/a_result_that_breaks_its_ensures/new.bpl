procedure p(b: bool) returns (r: bool) ensures r == b; { r := true; }
