procedure c() { assert true; } procedure p() { call c(); }
