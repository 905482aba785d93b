"""What came to pass in a farm, as people are told it afterwards. Nothing rests on it."""
