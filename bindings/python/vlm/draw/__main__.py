"""`python3 -m vlm.draw` is vlm-draw."""

import sys

from .command import main

sys.exit(main())
