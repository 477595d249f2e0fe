start a;
a = seq(many(string("x")), a);
