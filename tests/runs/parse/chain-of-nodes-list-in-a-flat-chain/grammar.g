start a; a = chainl1(flat, chainl1(node, "list", satisfy(digit), skip(string("."))), skip(string(",")));
