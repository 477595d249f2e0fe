start tree; tree = choice(build(list, seq(skip(string("(")), tree, skip(string(")")))), seq());
