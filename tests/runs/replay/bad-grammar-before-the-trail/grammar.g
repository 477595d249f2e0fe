start a
