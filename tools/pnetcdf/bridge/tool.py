"""What the tools do alike: help, version, and faults as one line."""
import gc
import sys

from . import VERSION
from .running import RunFault
from .traces import TraceFault


def run_tool(name, usage, main):
    """Runs a tool with the words of the command. Faults of traces, runs and files are one line, and status 2."""
    gc.disable()        # what is read stays until the end
    given = sys.argv[1:]
    if given[:1] in (["--help"], ["-h"]):
        print(usage.strip())
        sys.exit(0)
    if given[:1] == ["--version"]:
        print("%s %s" % (name, VERSION))
        sys.exit(0)
    try:
        status = main(given)
        sys.stdout.flush()
    except BrokenPipeError:
        sys.stderr.close()
        status = 2
    except (TraceFault, RunFault, OSError) as fault:
        print("%s: %s" % (name, fault), file=sys.stderr)
        status = 2
    sys.exit(status)
