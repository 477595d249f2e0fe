start a;
a = seq(b, string("x"));
b = many(seq(eof, string("y")));
