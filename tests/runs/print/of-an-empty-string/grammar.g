start p; p = string("");
