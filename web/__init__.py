"""The program as a page for browsers: what makes it, and its trials."""
