"""What check-differences is made of."""
