"""Counts what passes."""
passed = failed = 0


def check(what, found, wanted):
    global passed, failed
    if found == wanted:
        passed += 1
        return
    failed += 1
    print(f'{what}: found {found!r}, wanted {wanted!r}'[:1500])


def check_that(what, holds, found=''):
    check(what, True if holds else found or False, True)
