start comparison; comparison = choice(try(string("<"), notFollowedBy("=")), try(string("<=")));
