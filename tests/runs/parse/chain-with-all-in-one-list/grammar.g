start chain; chain = chainl1(flat, number, string("-")); number = build(num, text(many1(satisfy(digit))));
