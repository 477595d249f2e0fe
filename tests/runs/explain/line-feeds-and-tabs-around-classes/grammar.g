start a;
a = many(seq(name, skip(many(satisfy(" ")))));
name = text(seq(satisfy(	
 letter | "_"	
), many(satisfy( 	alphaNum | "_" ))));
