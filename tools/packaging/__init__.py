"""What tools/check_package is made of: what packages have to have, and machines on which they are installed."""
