start digit; digit = choice(string("0"), string("1"));
