# One of two keywords that begin with the same letter, alone on its line. Each try gives back what it took.
start keyword;

keyword = seq(choice(try(string("let")), try(string("lambda"))), skip(string("\n")));
