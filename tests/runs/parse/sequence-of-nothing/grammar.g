start a;
a = seq();
