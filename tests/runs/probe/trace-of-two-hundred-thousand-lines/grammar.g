start a;
a = skip(many(b));
b = string("x");
