start number; number = try(many1(satisfy(digit)));
