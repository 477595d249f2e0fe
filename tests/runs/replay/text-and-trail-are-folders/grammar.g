start a;
a = text(many(satisfy(digit)));
