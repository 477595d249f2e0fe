start a;
a = string("a\"b\\c\n\t\r\u{e9}\u{20AC}\u{1f600}");
