start items; items = many(try(satisfy(digit), string(";")));
