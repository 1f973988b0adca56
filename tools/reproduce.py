#!/usr/bin/env python3
"""usage: reproduce.py CORPUS JAR..

How many inputs of a corpus (each with its length, 4 bytes, in front) class_input.py makes of the classes in these jars, byte for byte.
The exit status is 1 if none."""
import struct, sys

sys.dont_write_bytecode = True
import class_input


def corpus(path):
    with open(path, 'rb') as f:
        while head := f.read(4):
            yield f.read(struct.unpack('<I', head)[0])


def main(args):
    if len(args) < 2:
        sys.exit(__doc__)
    wanted = set(corpus(args[0]))
    made = {data for jar in args[1:] for _, data in class_input.of_jar(jar)}
    both = len(wanted & made)
    print(f'{both} of {len(wanted)} different inputs are made byte for byte of {len(made)} different classes')
    return 0 if both else 1


if __name__ == '__main__':
    sys.exit(main(sys.argv[1:]))
