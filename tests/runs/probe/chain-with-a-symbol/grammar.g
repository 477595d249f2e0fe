start s; s = chainl1(node, "or", satisfy(letter), skip(string("|")));
