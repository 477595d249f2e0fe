start a;
seq = string("x");
