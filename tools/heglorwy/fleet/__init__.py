"""A fleet: its folders, its runs, what breaks off, and what receipts and stores come to."""
