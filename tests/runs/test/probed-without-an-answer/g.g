start a;
a = choice(a, string("x"));
b = many(option(string("x")));
