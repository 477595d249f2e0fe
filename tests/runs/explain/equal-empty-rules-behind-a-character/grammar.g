start s;
s = seq(string("x"), a);
a = choice(b, b);
b = seq();
