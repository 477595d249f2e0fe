start a;
a = choice(seq(string("a"), string("b")), string("a"), seq(string("a"), string("c")), string("d"));
