start a;
a = seq(many(string("\n")), many(string("\t")), string("x"));
