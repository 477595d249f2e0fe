start a;
	a = b;
