"""What is refused: each line with its number and a reason on standard error. Then nothing is made, and the status is 1."""
import sys

count = 0


def refuse(number, reason, line=""):
    global count
    count += 1
    print(f"translator: line {number}: {reason}{': ' * bool(line)}{line.strip()}", file=sys.stderr)


def end_if_any():
    if count:
        sys.exit(1)
