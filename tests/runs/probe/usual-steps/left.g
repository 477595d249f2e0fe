start a;
a = seq(a, string("x"));
