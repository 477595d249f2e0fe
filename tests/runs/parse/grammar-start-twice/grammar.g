start a;
a = string("x");
start a;
