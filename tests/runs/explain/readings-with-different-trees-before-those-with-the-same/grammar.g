start a;
a = choice(seq(string("x"), option(string("y"))), text(seq(string("x"), option(string("y")))));
