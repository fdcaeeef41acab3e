procedure t(b: bool) returns (r: bool) { r := b; if (b) { call r := t(false); } assert !r; }
