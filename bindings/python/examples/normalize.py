"""Writes the canonical form of a manifest from standard input to standard output.

If there is none, writes the violations of the schema, or the error, to standard error.
"""
import sys

from ciderglen import Error, InvalidDocument, Kind, normalize, violations


def main() -> int:
    document = sys.stdin.buffer.read()
    try:
        sys.stdout.buffer.write(normalize(Kind.MANIFEST, document))
    except InvalidDocument:
        for violation in violations(Kind.MANIFEST, document):
            print(violation, file=sys.stderr)
        return 1
    except Error as error:
        print(error, file=sys.stderr)
        return 1
    return 0


if __name__ == "__main__":
    sys.exit(main())
