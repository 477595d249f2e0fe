# Each round takes nothing, and puts nothing to what the chain joins or flattens, or to the text of what it makes.
start s;
s = seq(chainl1(join, n, n), chainr1(join, n, n), chainl1(flat, e, e), chainr1(flat, e, seq()), skip(chainl1(node, n, n)), text(chainr1(node, n, e)), string("y"));
e = build(list, seq());
n = build(node, seq());
