procedure p(a: bool, b: bool) { assert a <==> b; } // both or none
