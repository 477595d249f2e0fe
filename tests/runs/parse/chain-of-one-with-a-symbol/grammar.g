start chain; chain = chainl1(node, "minus", satisfy(digit), skip(string("-")));
