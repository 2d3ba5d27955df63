"""scripts.py MODULE.wasm OUT.mjs: the page's scripts that need no page, put together as the page has them, for tests in Node."""
import sys
from pathlib import Path

sys.dont_write_bytecode = True
ROOT = Path(__file__).resolve().parents[2]
sys.path[:0] = [str(ROOT / "tools"), str(ROOT / "bindings" / "python")]
from dustroute import header  # noqa: E402
from dustroute.repository import HEADER  # noqa: E402
from dustsheet import router_page  # noqa: E402

Path(sys.argv[2]).write_text(router_page.node_bundle(Path(sys.argv[1]).read_bytes(), header.read(HEADER)), encoding="utf-8")
