"""python3 tools/week COMMAND ...: make, table, show, chart and network; --help tells more."""
import sys

if not __package__:  # started by its folder: the folder above holds the package
    import os
    sys.path[0] = os.path.dirname(os.path.dirname(os.path.realpath(__file__)))


def start() -> int:
    try:
        from week.commands import main
        return main(sys.argv[1:])
    except KeyboardInterrupt:
        from week.files import say
        say("week: interrupted")
        return 130


if __name__ == "__main__":
    sys.exit(start())
