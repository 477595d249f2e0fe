start either;
either = chainl1(node, "or", both, skip(string("|")));
both = chainr1(node, "and", factors, string("&"));
factors = chainl1(flat, "x", chainl1(node, letter, skip(string("^"))), skip(string("*")));
letter = satisfy("a".."z");
