start a;
a = satisfy(many);