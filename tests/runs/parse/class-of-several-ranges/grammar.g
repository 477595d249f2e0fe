start a;
c = satisfy("a".."z" | "\u{e0}".."\u{ff}" | "_-" | "0".."9");
a = seq(c, c, c);
