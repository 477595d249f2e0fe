operators "+-*/" gap " ";
table infixl 6 "+";
table infixl 6 "-";
table infixl 7 "*";
table infixl 7 "/";
start a;
a = seq(sum, string("/y"));
sum = expr(node, node, node, string("x"));
