procedure c(k: int)
  free requires k > 0;
{ }
procedure p(x: int) { call c(x); assert x > 0; }
