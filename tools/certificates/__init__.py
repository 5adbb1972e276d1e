"""What tools/check-certificates is made of: certificates by hand, and the checker as a module."""
