start a;
a = choice(option(string("x")), b, c, d, string("y"));
b = seq(string("b"), b);
c = seq(string("c"), c);
d = seq(string("d"), d);
