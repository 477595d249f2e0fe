start a;
a = seq(string("x"), string("y"));
