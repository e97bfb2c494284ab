"""What is left of a drive whose run broke off."""
