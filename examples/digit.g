# A digit or an x in parentheses, as in (7).
start a;

d = satisfy("0".."9");    # any one of ten characters
a = seq(string("("), choice(d, string("x")), string(")"));
