procedure p() { break; }
