start a;
a = seq(choice(option(string("x")), string("y")), option(string("y")), b);
b = seq(option(string("z")), option(string("z")));
