"""What judges answers and shares nothing with the program: searches by brute force, worked cases, trials."""
