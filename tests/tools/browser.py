"""A page in a real browser: a script is run in it, and what it gathers is handed back."""

import json
import re
import shutil
import subprocess
import tempfile
from html import unescape
from pathlib import Path
from typing import Any

BROWSER = next((found for name in ("chromium", "chromium-browser", "google-chrome") if (found := shutil.which(name))), None)

# Before the page's own script: what goes wrong is gathered.
WATCH = """<script>
window.wrong = [];
addEventListener("error", (event) => window.wrong.push(event.message));
console.error = console.warn = (...words) => window.wrong.push(words.join(" "));
</script>"""

# Behind it: the test, whose value stands in the page that the browser prints.
DRIVE = """<script>
addEventListener("load", async () => {
  const gathered = {};
  const wait = () => new Promise((done) => setTimeout(done, 0));
  const press = (key) => document.dispatchEvent(new KeyboardEvent("keydown", { key, bubbles: true }));
  const text = (id) => document.getElementById(id).textContent;
  const over = (element) => element.dispatchEvent(new MouseEvent("mousemove", { bubbles: true, clientX: 200, clientY: 200 }));
  try {
    await (async () => { SCRIPT })();
  } catch (error) { window.wrong.push(String(error)); }
  const out = document.createElement("pre");
  out.id = "gathered";
  out.textContent = JSON.stringify({ wrong: window.wrong, ...gathered });
  document.body.append(out);
});
</script>"""


def run(page: str, script: str, *flags: str) -> dict[str, Any]:
    """Loads the page and runs the script in it, which fills `gathered`; what went wrong is under `wrong`."""
    page = page.replace("<head>", "<head>" + WATCH, 1).replace("</body>", DRIVE.replace("SCRIPT", script) + "</body>", 1)
    with tempfile.TemporaryDirectory(prefix="xrf-browser-") as room:
        file = Path(room) / "page.html"
        file.write_text(page, encoding="utf-8")
        command = [str(BROWSER), "--headless", "--no-sandbox", "--disable-gpu", f"--user-data-dir={room}/profile",
                   "--window-size=1500,1000", "--disable-extensions", *flags, "--dump-dom", file.as_uri()]
        done = subprocess.run(command, stdin=subprocess.DEVNULL, capture_output=True, text=True, timeout=120)
    found = re.search(r'<pre id="gathered">(.*?)</pre>', done.stdout, re.S)
    if found is None:
        raise AssertionError(f"the page gathered nothing: {done.stderr[-600:]}")
    return json.loads(unescape(found[1]))
