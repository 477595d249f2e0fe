start a;
a = chainl1(node, "s", b, string(","));
b = seq(satisfy(digit), option(string("!")));
