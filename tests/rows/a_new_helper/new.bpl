procedure helper(b: bool) { } procedure f(b: bool) { call helper(b); assert b; }
