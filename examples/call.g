# A call with names and numbers for arguments, as in max(size,42), to a tree with nodes.
word identifier head letter | "_" rest alphaNum | "_";
start line;

name   = build(name, word(identifier));
number = build(num, text(many1(satisfy(digit))));
call   = build(call, seq(name, between(string("("), string(")"), sepBy(choice(number, name), string(",")))));
line   = seq(call, skip(string("\n")));
