word name head letter rest alphaNum reserved "let";
start item;
item = choice(try(string("let"), notFollowedBy(alphaNum)), word(name));
