operators "+-" gap " " reserved "=";
table infixl 6 "+";
start sum;
sum = seq(expr(node, node, node, satisfy(digit)), string("-"));
