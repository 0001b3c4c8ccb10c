"""Documents of more than 1 MiB, as one."""
