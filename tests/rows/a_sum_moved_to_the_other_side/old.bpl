procedure p(x: int, y: int, z: int) { assert x + y < z; }
