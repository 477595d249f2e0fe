start a;
b = choice(string("et"), string("ambda"));
a = seq(string("l"), b);
