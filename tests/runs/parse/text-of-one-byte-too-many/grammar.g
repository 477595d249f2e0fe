start digits; digits = text(many(satisfy(digit)));
