procedure p(x: int)
  requires x > 4;
{ assert x > 5; }
