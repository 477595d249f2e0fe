start a;
a = choice(string("x"), b);
b = seq(string("y"), b);
c = many(string("z"));
