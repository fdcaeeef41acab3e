procedure p(x: int) { havoc x; }
