"""What ends a command with status 2 and a message in words."""


class Complaint(Exception):
    """Input that cannot be used. Its text is printed on standard error."""
