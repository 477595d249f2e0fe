start b;
a = c;
b = .;
