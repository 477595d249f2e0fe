# Names that Haskell, the Prelude, Parsec or modules have, and two that differ in their first letter alone.
class alpha = "a";
class x = "x";
word x head x rest alpha;
start Sum;

#!The sum of all, and
#
# what follows: "é → ‮?".
Sum = seq(sum, type, digit, leaf, foldl, word(x), p, notFollowedBy(alpha));
sum = satisfy(alpha);
type = satisfy(x);
digit = satisfy(digit);
leaf = string("\u{7f}\"é1\t");
foldl = skip(string("a"));
p = satisfy(not "");
