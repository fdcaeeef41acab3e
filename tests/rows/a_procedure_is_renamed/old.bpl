procedure f() { }
