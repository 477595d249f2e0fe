start p; p = many1();
