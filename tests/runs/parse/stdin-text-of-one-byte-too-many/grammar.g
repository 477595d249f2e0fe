start a;
a = text(many(satisfy(not "x")));
