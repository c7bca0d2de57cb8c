"""What tl-formal is made of."""
