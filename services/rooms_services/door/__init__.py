"""The door beside a room: one request of a user becomes many of the room, sent in that name."""
