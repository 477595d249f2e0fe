start a;
a = seq(text(seq()));
