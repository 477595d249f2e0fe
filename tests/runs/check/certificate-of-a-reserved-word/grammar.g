class alphanumeric = "0".."9" | "A".."Z" | "a".."z";
word name head letter rest alphanumeric reserved "let";
start item;
item = choice(try(string("let"), notFollowedBy(alphanumeric)), word(name));
