start p; p = eof; p = eof;
