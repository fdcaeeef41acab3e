var m: [int]int; procedure p() { }
