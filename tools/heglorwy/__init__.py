"""What the tools share: one way to call the programs, one reader of rolls, tariffs and tables, one maker of drives."""
