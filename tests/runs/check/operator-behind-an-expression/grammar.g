operators "+" gap " "; start sum; sum = seq(expr(node, node, node, satisfy("x")), string("+"));
