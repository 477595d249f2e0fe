# Each round takes nothing and makes a node: they are skipped.
start s;
s = seq(string("x"), skip(many(build(node, seq()))), text(many(build(node, eof))));
