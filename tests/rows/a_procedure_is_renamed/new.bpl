procedure g() { }
