start rest; rest = text(many(satisfy(not ";")));
