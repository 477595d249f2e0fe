start a;
a = choice(b, c, d, f);
b = string("bc");
c = label(satisfy(digit), "number");
d = seq(try(string("xy")), eof);
f = string("f");
