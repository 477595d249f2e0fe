start a;
a = satisfy(upper);
b = ;