"""The figures of documents 01 and 02 that the tests in Python name ("Numbers", "Bench print", request 4); in C they are
macros of include/grugavorn.h."""
PLACES = 64  # of a unit, numbered from 0
NAMES = 4  # access points of a plan, at most
NAME_LENGTH = 63  # octets of a name, at most
DATAGRAM = 2048  # octets of a bench line's datagram, at most
KEPT = 32  # replies to types 34 and 36 that are kept, at most
LIFE = 10  # ticks that a kept reply has to live
