"""How many atoms, and how many bonds, a record may have: the one number from which all others of this kind are made."""

LIMIT = 999
WIDEST = 999        # what three columns of the counts line can hold
