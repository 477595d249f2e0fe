start a;
d = satisfy(digit);
a = satisfy(d);