"""What ./build is made of: the crates, the toolchain's commands, the estimate of time, the lines that it shows."""

import sys

if sys.version_info < (3, 9):
    sys.exit("building marple needs Python 3.9 or later, and this is %d.%d" % sys.version_info[:2])
