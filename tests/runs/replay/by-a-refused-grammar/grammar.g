start a;
# Parsec never takes the second string.
a = choice(string("ab"), string("ac"));
