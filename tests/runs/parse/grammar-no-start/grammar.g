a = string("x");
