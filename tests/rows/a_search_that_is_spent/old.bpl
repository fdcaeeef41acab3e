procedure p(a: bool, b: bool, c: bool, d: bool, e: bool, f: bool, g: bool, h: bool, i: bool, j: bool, k: bool) { assert a <==> b <==> c <==> d <==> e <==> f <==> g <==> h <==> i <==> j <==> k; }
