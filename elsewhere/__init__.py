"""The program for other systems than Linux on x86-64: what makes it, and its trials."""
