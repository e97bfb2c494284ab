"""The verification officer's kit: drives that tell a right meter from a wrong one, readings, and the report on them."""
