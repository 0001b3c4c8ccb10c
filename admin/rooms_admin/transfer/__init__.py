"""Files into a room, and out of it."""
