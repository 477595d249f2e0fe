operators "+-" gap " " reserved "=";
table infixl 6 "+";
start sum;
sum = expr(node, node, node, many(satisfy(digit)));
