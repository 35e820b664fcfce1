"""The entry: finds the launcher's modules beside it, and nothing else of the user's."""

import os
import sys

if sys.version_info < (3, 8):
    sys.exit("tarzubei: Python 3.8 or later is needed; name one by TARZUBEI_PYTHON")
sys.path[0] = os.path.dirname(os.path.dirname(os.path.realpath(__file__)))

from launcher.start import main  # noqa: E402 (the folder has to be known first)

sys.exit(main(sys.argv[1:]))
