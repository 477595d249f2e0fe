start p; p = eof; local = eof;
