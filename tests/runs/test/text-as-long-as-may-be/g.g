start a;
a = skip(many(satisfy("7")));
