start a;
a = build(tuple, "", seq());