start a;
a = choice(b, b);
b = seq();
