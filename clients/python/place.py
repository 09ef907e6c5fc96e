"""Prints the directory below PREFIX in which this Python looks for packages: place.py PREFIX.

If it looks in none there, that is PREFIX/lib/pythonX.Y/site-packages, and a line on standard error says what it takes.
"""

import os
import site
import sys


def place(prefix):
    known = [*sys.path, site.getusersitepackages()]
    fitting = [it for it in known if it.startswith(os.path.join(prefix, "lib/")) and it.endswith("-packages")]
    return (fitting or [os.path.join(prefix, "lib", f"python{sys.version_info[0]}.{sys.version_info[1]}", "site-packages")])[0]


if __name__ == "__main__":
    packages = place(sys.argv[1])
    if packages not in sys.path and packages != site.getusersitepackages():
        print(f"landtree: python3 finds the package by PYTHONPATH={packages}", file=sys.stderr)
    print(packages)
