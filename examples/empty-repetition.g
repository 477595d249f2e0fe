# Where there is no digit, a round of the repetition takes nothing, and so would every round after it.
start digits;

digits = many(option(satisfy(digit)));
