start a;
a = build(join, many(satisfy(not "x")));
