start s; s = seq(chainl1(node, "or", satisfy(letter), skip(string("|"))), chainr1(node, "and", satisfy(digit), string("&")));
