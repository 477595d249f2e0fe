# Where a chain has no round, or an expression no operator, nothing is joined, and the trees stay; the same in a form that isn't there.
operators "+-!" gap " ";
table infixl  6 "+";
table prefix  8 "-";
start s;
s = seq(chainl1(join, e1, string(",")), chainr1(join, e1, string(",")), expr(join, join, join, e1), expr(node, join, join, e1), chainl1(join, satisfy("a".."z"), string(",")), e1);
e0 = build(node, seq());
e1 = build(node, seq(e0, e0));
