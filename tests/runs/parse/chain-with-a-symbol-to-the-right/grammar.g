start chain; chain = chainr1(node, "power", number, string("^")); number = build(num, text(many1(satisfy(digit))));
