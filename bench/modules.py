"""Files of one module, in the folder that the first word names."""
import sys


def write(name, *lines):
    """The file NAME.pl of the module m with these lines."""
    with open(f"{sys.argv[1]}/{name}.pl", "w") as out:
        out.write("\n".join([":- module(m, []).", *lines]) + "\n")
