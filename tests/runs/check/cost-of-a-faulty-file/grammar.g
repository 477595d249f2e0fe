start a; a = ;
