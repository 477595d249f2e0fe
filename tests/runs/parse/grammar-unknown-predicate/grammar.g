start a;
a = satisfy("x" | upper);