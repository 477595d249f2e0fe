start a;
a = b;
b = string("x");
