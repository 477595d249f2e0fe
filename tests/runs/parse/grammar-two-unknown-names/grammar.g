start a;
a = seq(build(num, satisfy(upper)), build(tuple, seq()));