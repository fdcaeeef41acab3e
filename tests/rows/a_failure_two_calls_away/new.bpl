procedure p() { call q(); } procedure q() { call r(); } procedure r() { assert false; }
