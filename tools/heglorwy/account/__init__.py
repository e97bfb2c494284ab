"""The account of a trip for its passenger."""
