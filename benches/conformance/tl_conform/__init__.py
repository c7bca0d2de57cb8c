"""What tl-conform is made of."""
