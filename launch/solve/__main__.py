"""The driver of ./solve, ./plan-by and ./never-by: python3 -I launch/solve/__main__.py TOOL ROOT NAME=PROGRAM.. -- WORD..

It runs itself with the words `weights` or `invariants` for what reads and writes long texts."""
import sys

# Python finds the other parts by itself where a folder is run, which takes it ten milliseconds more.
sys.path.insert(0, __file__.rpartition("/")[0] or ".")


def main():
    """Runs the tool that is named first; its status is that of the call."""
    if sys.argv[1] == "weights":
        import weights
        return weights.main(sys.argv[2:])
    if sys.argv[1] == "invariants":
        import invariants
        return invariants.main(sys.argv[2:])
    tool, root, *rest = sys.argv[1:]
    at = rest.index("--")
    programs = dict(it.split("=", 1) for it in rest[:at] if not it.endswith("="))
    if tool == "solve":
        import solve as it
    elif tool == "never-by":
        import never_by as it
    else:
        import plan_by as it
    return it.run(root, programs, rest[at + 1:])


if __name__ == "__main__":
    sys.exit(main())
