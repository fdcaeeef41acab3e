procedure p(x: int) { assert false; }
