start a;
a = seq(choice(string("x"), string("z"), seq(string("y"), a)), many(chainr1(list, string("w"), seq())));
