"""Shared code of checks and of the tests of the tools: their report."""


def report(passed, lines):
    """Prints a line for each fault, and the counts. Returns the status."""
    for line in lines:
        print(line)
    print('%d passed, %d failed' % (passed, len(lines)))
    return 1 if lines else 0


def told(tests):
    """Prints a line for each test that fails, with what was found and what is expected, and the counts. Returns the status."""
    passed = failed = 0
    for name, found, want in tests:
        if found == want:
            passed += 1
        else:
            failed += 1
            print('%s: found %r, want %r' % (name, found, want))
    print('%d passed, %d failed' % (passed, failed))
    return 1 if failed else 0
