start s;
s = seq(skip(a), string("z"));
a = seq(string("x"), option(a), eof);
