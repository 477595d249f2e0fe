start s;
s = seq(a, option(string("+")));
a = choice(seq(a, string("+"), t), t);
t = string("x");
