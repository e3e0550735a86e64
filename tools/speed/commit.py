import os
import sys


def main():
    with open(sys.argv[1], 'ab', buffering=0) as f:
        for i in range(1, 1001):
            f.write(b'PUT %d IN a\n' % i)
            os.fsync(f.fileno())


main()
