start either; either = choice(option(satisfy("x")), satisfy("y"));
