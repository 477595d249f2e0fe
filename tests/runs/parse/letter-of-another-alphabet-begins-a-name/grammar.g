start use;
use  = build(call, seq(name, skip(string("(")), build(num, satisfy(digit)), skip(string(")"))));
name = text(seq(satisfy(letter), satisfy(alphaNum)));
