"""python3 tools/week/tests [GROUP ...]: the tests of tools/week; the last line says how many cases there were and how many differ.

They need the weekly program, target/bin/weektrend or what WEEKTREND names. Groups: tables, listings, words, charts, commands,
network, source; all unless some are named.
"""
import os
import sys
import tempfile

HERE = os.path.dirname(os.path.realpath(__file__))
sys.path[0:1] = [os.path.dirname(os.path.dirname(HERE)), HERE]

import common  # noqa: E402
import charts  # noqa: E402
import commands  # noqa: E402
import listings  # noqa: E402
import networks  # noqa: E402
import source  # noqa: E402
import tables  # noqa: E402
import wording  # noqa: E402

GROUPS = {"tables": tables.run, "listings": listings.run, "words": wording.run, "charts": charts.run, "commands": commands.run,
          "network": networks.run, "source": source.run}


def main(names):
    if not set(names) <= set(GROUPS):
        print(__doc__)
        return 2
    if not os.access(common.PROGRAM, os.X_OK):
        print(f"no program {common.PROGRAM}: tools/build weektrend makes it")
        return 2
    check = common.Check()
    for name in names or GROUPS:
        before = check.cases, check.differences
        with tempfile.TemporaryDirectory() as folder:
            GROUPS[name](check, folder)
        print(f"{name}: {check.cases - before[0]} compared, {check.differences - before[1]} wrong", flush=True)
    print(f"{check.cases} cases, {check.differences} differences")
    return 1 if check.differences else 0


sys.exit(main(sys.argv[1:]))
