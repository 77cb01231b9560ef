"""Labs of BIRD 2: all daemons in one network namespace."""
