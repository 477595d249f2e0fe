class s = "+"; operators s gap " "; table infix 1 "+"; table postfix 1 "+"; start p; p = eof;
