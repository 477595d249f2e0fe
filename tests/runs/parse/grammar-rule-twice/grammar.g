start a;
a = string("x");
a = string("y");
