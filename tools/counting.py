"""The last line of a check, 'N passed, M failed': what the checks in Python share. tools/counted.sh adds such lines up."""


def counted(checks, where='', skipped=()):
    """Prints each fault of each check, after the words where, and then the last line. A check is the list of its
    faults, empty if all is well. The words for each that could not be tried, as 'NAME: skipped, ..', are printed too,
    and counted apart. Gives the exit status: 0 only if something was looked at, or skipped, and no fault was found."""
    passed = failed = 0
    for faults in checks:
        passed, failed = passed + (not faults), failed + len(faults)
        for fault in faults:
            print(f'{where}{fault}')
    for words in skipped:
        print(words)
    more = f', {len(skipped)} skipped' if skipped else ''
    print(f'{passed} passed, {failed} failed{more}')
    return 1 if failed or not (passed or skipped) else 0
