"""Documents edited in place: WebDAV (RFC 4918), by the room's own requests."""
