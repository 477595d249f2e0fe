# A list of nothing stays in a node, also where that is flattened, and beside what isn't a list.
start s;
s = build(flat, seq(e1, build(list, e1), build(node, e1), build(node, "list", seq()), build(join, e1), string("a"), e1));
e0 = build(list, seq());
e1 = seq(e0, e0);
