# A color as in #1E90ff: red, green and blue, two hexadecimal digits each.
start color;

hex   = satisfy("0".."9" | "a".."f" | "A".."F");
part  = seq(hex, hex);
color = seq(string("#"), part, part, part, string("\n"));
