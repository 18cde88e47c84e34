"""What the tools share. A tool whose first word is --help prints what it is for, and ends."""
import sys

if sys.argv[1:2] in (["-h"], ["--help"]):
    print((sys.modules["__main__"].__doc__ or "").strip())
    sys.exit(0)
