"""The add-on for Blender: what makes it, and its trials."""
