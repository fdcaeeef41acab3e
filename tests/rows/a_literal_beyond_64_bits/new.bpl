procedure p(x: int) { assert x <= 18446744073709551616; }
