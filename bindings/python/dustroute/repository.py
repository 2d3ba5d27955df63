"""Where this module stands: in its repository, whose tools read and write the text of a job and its sheet."""
from __future__ import annotations

import sys
from pathlib import Path

ROOT = Path(__file__).resolve().parents[3]
HEADER = ROOT / "bindings" / "c" / "dustroute.h"
TOOLS = ROOT / "tools"

if str(TOOLS) not in sys.path:
    sys.path.append(str(TOOLS))
