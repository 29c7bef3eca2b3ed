"""Numbers of decimal or hex digits. One that is too long to matter anywhere is read as a large one."""

LARGE = 10**30


def of_digits(text, radix=10):
    text = text.lstrip("0")
    return int(text or "0", radix) if len(text) < 30 else LARGE
