procedure q(); procedure p() { call q(); }
