# one
# two
# three
# four
# five
# six
start a;
a = choice(
    seq(string("x"), string("1")),
    seq(string("x"), string("2")),
    string("z")
);
