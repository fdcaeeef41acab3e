procedure p() { } procedure p() { }
