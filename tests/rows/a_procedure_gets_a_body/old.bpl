procedure p(b: bool);
