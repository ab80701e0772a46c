"""What `run` and the scripts share, and what they import."""
