start wide; wide = text(many(satisfy(not "x")));
