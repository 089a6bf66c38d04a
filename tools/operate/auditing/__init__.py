"""What tools/operate/audit reads, and what it looks for."""
