"""Runs the reference: words in, stdin in, stdout, one line on stderr, status."""

import os
import sys

sys.path.insert(0, os.path.dirname(os.path.dirname(os.path.abspath(__file__))))

from reference.command import run  # noqa: E402


def main() -> int:
    status, out, err = run(sys.argv[1:], sys.stdin.buffer.read)
    sys.stdout.buffer.write(out)
    sys.stdout.buffer.flush()
    sys.stderr.buffer.write(err)
    return status


if __name__ == "__main__":
    sys.exit(main())
