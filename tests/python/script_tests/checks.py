"""Makes checks, and prints how each went. A check has a name, what is wanted and what came."""

import subprocess


def shown(value):
    """Returns a value as it is printed: the beginning of a long one."""
    text = repr(value)
    return text if len(text) <= 1000 else f"{text[:1000]}.."


def report(name, wanted, got):
    """Prints how a check went. Returns whether it passed."""
    is_good = wanted == got
    print(f"{'ok' if is_good else 'FAILED'} {name}", flush=True)
    if not is_good:
        print(f"  wanted {shown(wanted)}\n  but got {shown(got)}", flush=True)
    return is_good


def checked(part):
    """Makes the checks of a part. Returns whether each passed."""
    results = []
    try:
        for check in part():
            results.append(report(*check))
    except (OSError, ValueError, LookupError, subprocess.SubprocessError) as error:
        results.append(report(part.__doc__, "no error", error))
    return results
