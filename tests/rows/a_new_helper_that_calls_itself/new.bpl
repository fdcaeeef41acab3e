procedure helper(k: int) { if (k > 0) { call helper(k - 1); } } procedure f(x: int) { call helper(x); assert x > 0; } procedure g(y: int) { }
