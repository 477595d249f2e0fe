start a;
a = skip(many(choice(string("x"), string("y"))));
