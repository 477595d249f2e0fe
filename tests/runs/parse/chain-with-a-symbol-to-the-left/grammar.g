start chain; chain = chainl1(node, "minus", number, skip(string("-"))); number = build(num, text(many1(satisfy(digit))));
