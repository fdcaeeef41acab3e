procedure c(k: int)
  requires k >= 0;
{ }
procedure p(x: int) { call c(x); }
