start a;
a = build(list, many(string("x")));
