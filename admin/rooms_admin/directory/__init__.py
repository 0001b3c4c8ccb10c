"""The office's directory, LDAP or Active Directory: its groups, and guests beside it."""
