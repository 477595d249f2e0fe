start a; a = choice(string("a"), string("ab"));
