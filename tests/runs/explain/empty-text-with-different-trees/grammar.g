start a;
a = choice(b, build(list, b));
b = seq();
