operators "-" gap " ";
table infixl 6 "-";
start a;
a = skip(expr(node, node, node, string("x")));
