"""Files of passwords, and what can be one."""
