procedure p(x: int)
  requires x > 5;
{ assert x > 5; }
