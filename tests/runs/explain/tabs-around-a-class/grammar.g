start a;
a = many(seq(name, skip(many(satisfy(" ")))));
name = text(many1(satisfy(	letter 	)));
