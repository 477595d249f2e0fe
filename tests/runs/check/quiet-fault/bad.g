start a;
a = string("x") string("y");
