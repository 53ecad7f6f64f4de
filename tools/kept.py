"""The command line of the scripts that write what programs must print: without an argument, --make, --check."""
import os
import sys


def command(doc, printed, files, source):
    """printed gives the text for standard input, files the kept files and their bytes, and source is what they are typed from."""
    mode = sys.argv[1:]
    if mode == ["--make"]:
        for path, data in files():
            with open(path, "wb") as out:
                out.write(data)
    elif mode == ["--check"]:
        wrong = [path for path, data in files() if not os.path.isfile(path) or open(path, "rb").read() != data]
        print("\n".join("differs: " + path for path in wrong) or "all as %s says" % source)
        return 1 if wrong else 0
    elif mode:
        print(doc)
        return 2
    else:
        sys.stdout.buffer.write(printed(sys.stdin.buffer.read()))
    return 0
