procedure t(b: bool) returns (r: bool) { if (b) { call r := t(!b); } else { r := b; } assert !r; }
