start a;
a = choice(b, b, b, b, b, b, string("y"));
b = seq();
