# Each round takes nothing, but its nodes are put to what the chain makes, or it makes one.
start s;
s = seq(chainl1(flat, n, e), chainr1(flat, n, n), chainl1(node, e, e), chainr1(node, e, seq()), chainl1(join, seq(n, string("x")), e));
e = build(list, seq());
n = build(node, seq());
