procedure p() { assert b; }
