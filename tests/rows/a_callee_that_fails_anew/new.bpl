procedure c() { assert false; } procedure p() { call c(); }
