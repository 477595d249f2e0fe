# The choice stays with its first alternative once that has taken the l, so lambda is never read.
start keyword;

keyword = choice(string("let"), string("lambda"));
