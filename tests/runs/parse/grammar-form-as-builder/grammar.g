start a;
a = build(eof, seq());