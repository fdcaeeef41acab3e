procedure f(x: int) { assert x > 0; } procedure g(y: int) { }
