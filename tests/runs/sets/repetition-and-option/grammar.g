start all; all = seq(part, option(string("x"))); part = many(satisfy(digit));
