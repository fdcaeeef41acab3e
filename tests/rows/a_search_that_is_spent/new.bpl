procedure p(a: bool, b: bool, c: bool, d: bool, e: bool, f: bool, g: bool, h: bool, i: bool, j: bool, k: bool) { assert k <==> j <==> i <==> h <==> g <==> f <==> e <==> d <==> c <==> b <==> a; }
