start a;
a = many(choice(build(num, text(satisfy("0".."9"))), string("x")));
