"""The names by which arguments and files speak of conditions. Nothing here needs the library."""

# What is found.
NEVER, FAULTY, OVERLAP = FINDINGS = ("never", "faulty", "overlap")
# What may be printed alone: conditions by what they are, and what belongs together of which none or
# two are taken somewhere.
NONE, TWO = "none", "two"
CHOICES = (
    FAULTY, "not-read", NEVER, "always", "platforms", "depends", "not-tried", NONE, TWO,
)
# What an entry for something known may have, and of which it has one at least.
PATH, CONDITION = MEMBERS = LEAST = ("path", "condition")
