"""Services beside the rooms' servers: each has a user of its own, and no right over a room."""
