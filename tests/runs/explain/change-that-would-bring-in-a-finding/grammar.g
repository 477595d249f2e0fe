start a;
a = seq(choice(option(string("x")), string("y")), option(string("y")));
