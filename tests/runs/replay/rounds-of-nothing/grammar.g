start a;
a = seq(many(seq(skip(string("x")), seq())), many(seq()), string("y"));
