# A header of operator declarations, as in infixl 6 +; and blocks, with which what they declare ends.
operators "+-*/<>=!" gap " " reserved "=" max 8;
start file;

file    = seq(blank, entries);
entries = many(choice(seq(declare(letter), skip(string(";")), blank), block));
block   = build(list, between(seq(string("{"), blank), seq(string("}"), blank), local(entries)));
blank   = skip(many(satisfy(" \n")));
