start a;
a = choice(seq(a, string("x")), string("x"));
