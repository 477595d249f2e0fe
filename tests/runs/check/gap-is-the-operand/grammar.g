operators "+" gap "x"; start sum; sum = expr(node, node, node, satisfy("x"));
