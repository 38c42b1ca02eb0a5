"""Test vectors of Parcels: how they are made of the program, and how an implementation is tried on them."""
