procedure {:kept true} p(a: bool, b: bool) { assert !(a != b); }
