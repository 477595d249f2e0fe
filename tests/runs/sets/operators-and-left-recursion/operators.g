# Sums of numbers by operators, behind declarations of operators in the text.
operators "+-*" gap " " reserved "=";
word name head "A".."Z" | "a".."z" rest digit reserved "in";
start a;
a = seq(many(try(declare(digit), string(";"))), b);
b = choice(expr(node, node, node, c), d);
c = choice(word(name), satisfy(digit), seq(skip(string("(")), b, skip(string(")"))));
d = choice(seq(d, string("!")), eof);
