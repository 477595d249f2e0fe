start p; p = .;
