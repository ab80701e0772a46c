"""What the checks share, and what they import."""
