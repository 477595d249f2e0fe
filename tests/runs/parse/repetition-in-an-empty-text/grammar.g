start none; none = many(satisfy(digit));
