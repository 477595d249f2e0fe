start a;
a = satisfy("0".."9");
