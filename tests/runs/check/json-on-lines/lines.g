start a;
a = choice(
  string("ab"),
  seq(string("ac"),
      string("é")));
