"""The names by which arguments and files speak of rows. Nothing here needs the library."""

UNKNOWN, NEVER, CONDITIONAL, DIFFERING = "unknown", "never", "conditional", "differing"
# What is found of rows, and which rows may be printed alone.
FINDINGS, CHOICES = (UNKNOWN, NEVER), (CONDITIONAL, DIFFERING, UNKNOWN)
