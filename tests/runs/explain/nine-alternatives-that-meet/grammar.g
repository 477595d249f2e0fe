start a;
a = choice(string("xa"), string("xb"), string("xc"), string("xd"), string("xe"), string("xf"), string("xg"), string("xh"), string("xi"));
