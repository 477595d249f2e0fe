start a; a = seq(chainl1(num, "x", satisfy(digit), skip(string("-"))), chainr1(join, "x", satisfy(letter), skip(string("."))));
