start chain; chain = chainr1(list, number, string("-")); number = build(num, text(many1(satisfy(digit))));
