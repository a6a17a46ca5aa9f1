"""The checks of bench/clients.sh: run.py PROGRAM FOLDER [PART..]."""
import logging
import signal
import sys
import time
import traceback

import basics
import ends
import faults
import history
import members
import recorded
import restore
import upgrade

PARTS = {"basics": basics.checks, "faults": faults.checks + recorded.checks, "ends": ends.checks, "history": history.checks,
         "members": members.checks, "restore": restore.checks, "upgrade": upgrade.checks, "recorded": recorded.checks}


def main():
    logging.disable(logging.CRITICAL)
    for it in (signal.SIGTERM, signal.SIGHUP):
        signal.signal(it, lambda *_: sys.exit(130))
    program, work, parts = sys.argv[1], sys.argv[2], sys.argv[3:] or [it for it in PARTS if it != "recorded"]
    passed, failed = 0, 0
    for part in parts:
        for check in PARTS[part]:
            name, since = check.__name__.replace("_", " "), time.time()
            try:
                said = check(program, work)
                passed += 1
                print(f"ok     {name} ({time.time() - since:.1f} s)" + (f": {said}" if said else ""), flush=True)
            except basics.Skipped as reason:
                print(f"skip   {name}: {reason}", flush=True)
            except Exception as wrong:  # each check by itself
                failed += 1
                print(f"FAILED {name} ({time.time() - since:.1f} s): {type(wrong).__name__} {wrong}", flush=True)
                traceback.print_exc(file=sys.stderr)
    print(f"{passed} passed, {failed} failed")
    return 1 if failed else 0


sys.exit(main())
