function f(x: int): int; procedure p() { assert f() == 0; }
