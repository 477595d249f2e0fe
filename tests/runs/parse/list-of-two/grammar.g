start row; row = build(list, sepBy(number, string(","))); number = build(num, text(many1(satisfy(digit))));
