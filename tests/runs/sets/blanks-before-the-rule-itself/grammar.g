class blank = " "; start all; all = seq(blanks, all, string("x")); blanks = many(satisfy(blank));
