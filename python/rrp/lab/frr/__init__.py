"""Labs of FRR: a network namespace a router, as FRR takes distances from the kernel's routes."""
