start a;
a = choice(seq(p, string("1")), seq(q, string("2")), seq(q, string("3")), seq(p, string("4")));
p = choice(satisfy("a" | "z"), satisfy("c" | "y"));
q = choice(satisfy("b" | "y"), satisfy("d" | "z"));
