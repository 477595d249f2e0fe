start p;
