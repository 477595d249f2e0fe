start a;
a = satisfy(num);