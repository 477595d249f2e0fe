# A time of day from 00:00 to 23:59, alone on its line.
start line;

digit  = satisfy("0".."9");
hour   = choice(seq(satisfy("01"), digit),
                seq(string("2"), satisfy("0".."3")));
minute = seq(satisfy("0".."5"), digit);
line   = seq(hour, string(":"), minute, string("\n"));
