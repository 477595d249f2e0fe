operators "+-*/<>=!" gap " \n" reserved "=" max 7;
table infix   4 "<";
table infixr  5 ">>";
table infixl  6 "+";
table infixl  6 "-";
table infixl  7 "*";
table prefix  8 "-";
table postfix 9 "!";
start block;

block  = seq(many(seq(declare(letter), skip(string(";")), blanks)), sum);
sum    = expr(node, node, node, term);
term   = seq(choice(number, between(string("("), string(")"), sum)), blanks);
number = build(num, text(label(many1(satisfy(digit)), "number")));
blanks = skip(many(satisfy(" \n")));
