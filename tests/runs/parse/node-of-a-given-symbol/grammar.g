start p; p = build(node, "pair", seq(string("x"), string("y")));
