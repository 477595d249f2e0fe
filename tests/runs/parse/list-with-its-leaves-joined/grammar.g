start chain; chain = build(join, sepBy1(number, string("-"))); number = build(num, text(many1(satisfy(digit))));
