start a;
a = choice(seq(), string("x"));
