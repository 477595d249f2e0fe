start keyword; keyword = choice(string("let"), string("lambda"));
