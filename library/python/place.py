"""Prints the folder below a prefix in which the Python that runs this looks for modules: place.py PREFIX."""

import os
import site
import sys
import sysconfig

prefix, version = sys.argv[1].rstrip("/"), "python%d.%d" % sys.version_info[:2]
if os.path.realpath(prefix) == os.path.realpath(site.getuserbase()):
    print(site.getusersitepackages())
elif "deb_system" not in sysconfig.get_scheme_names():
    print(f"{prefix}/lib/{version}/site-packages")
else:
    # Debian's: python3 for its packages, below /usr; a version's own for what is installed beside them.
    print(f"{prefix}/lib/{'python3' if prefix == '/usr' else version}/dist-packages")
