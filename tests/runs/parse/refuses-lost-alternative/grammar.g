start a;
a = choice(string("let"), string("lambda"));
