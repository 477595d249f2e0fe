start p; p = build(join, "pair", seq(string("x"), string("y")));
