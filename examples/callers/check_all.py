"""Checks many proofs in one process, on all processors. usage: python3 check_all.py FORMULA TRACE [FORMULA TRACE]..

It prints a line for each pair, and what a fault means. The status is 0 if all are verified, 1 if not, and 3 if a file cannot be read.
"""

import concurrent.futures
import sys

import qrp_check


def check(pair):
    """Whether the pair is verified, and its line."""
    verdict = qrp_check.verify_files(*pair)
    return verdict.verified, f"{pair[1]}: {verdict}" + (f": {verdict.meaning}" if verdict.meaning else "")


def main(words):
    if not words or len(words) % 2:
        print(__doc__, file=sys.stderr)
        return 5
    with concurrent.futures.ThreadPoolExecutor() as pool:
        try:
            results = list(pool.map(check, zip(words[::2], words[1::2])))
        except OSError as error:
            print(f"{error.filename}: {error.strerror}", file=sys.stderr)
            return 3
    for _, line in results:
        print(line)
    return 0 if all(verified for verified, _ in results) else 1


if __name__ == "__main__":
    sys.exit(main(sys.argv[1:]))
