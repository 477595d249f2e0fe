start either; either = choice(try(string("a"), string("b")), string("ac"));
