"""What the library's object code is and does: read from its archive, followed, bounded and counted."""
