procedure p() { assert 1; }
