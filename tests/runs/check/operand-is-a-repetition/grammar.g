operators "+" gap " "; start sum; sum = expr(node, node, node, many(satisfy("x")));
