procedure p(x: int, y: int, z: int) { assert x < z - y; }
