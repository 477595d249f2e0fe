start a;
a = string("x
");
