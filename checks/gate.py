"""The kit's merge gate, `rt ci`, with lines that tell how far it is."""
import os
import re
import subprocess
import threading
import time

import kit

LOG = f"{kit.ROOT}/out/ci.log"
LAST = re.compile(r"(\d+) passed, (\d+) failed")
ENDED = re.compile(r"rt: (\w+)(: its tests are)? (?:proved|NOT PROVED|is kept)")


def at_work():
    """The crates that provers of this repository are at work on."""
    found = set()
    for number in filter(str.isdigit, os.listdir("/proc")):
        try:
            with open(f"/proc/{number}/cmdline", "rb") as it:
                words = it.read().decode(errors="replace").split("\0")
            folder = os.readlink(f"/proc/{number}/cwd")
        except OSError:
            continue
        if "--crate-name" in words and folder.startswith(f"{kit.ROOT}/crates/"):
            name = words[words.index("--crate-name") + 1]
            found.add(f"{name} (tests)" if "--test" in words else name)
    return sorted(found)


def run(say, every=60):
    """Runs the gate, tells each minute how far it is, and returns how many it passed and failed, and its status."""
    listed, done, begun, over = kit.names(), set(), time.monotonic(), threading.Event()
    os.makedirs(os.path.dirname(LOG), exist_ok=True)

    def tell():
        while not over.wait(every):
            minutes, work = (time.monotonic() - begun) / 60, at_work()
            ahead = f"; at work: {', '.join(work)}" if work else ""
            say(f"{len(done)} of {len(listed)} crates are proved after {minutes:.0f} minutes{ahead}")

    teller = threading.Thread(target=tell, daemon=True)
    teller.start()
    environment = {**os.environ, "RT_JOBS": str(kit.processors())}
    how = {"stdin": subprocess.DEVNULL, "stdout": subprocess.PIPE, "stderr": subprocess.STDOUT, "errors": "replace", "text": True}
    passed, failed = 0, 1
    with open(LOG, "w", encoding="utf-8") as log, subprocess.Popen(["rt", "ci"], cwd=kit.ROOT, env=environment, **how) as ran:
        for line in ran.stdout:
            log.write(line)
            log.flush()
            ended, last = ENDED.match(line), LAST.match(line)
            if ended and not ended[2]:
                done.add(ended[1])
            if last:
                passed, failed = int(last[1]), int(last[2])
            if re.search(r"NOT PROVED|FAILED|rt: note|rt: ok|warning:|run rt fmt|differ first", line):
                say(line.rstrip())
    over.set()
    teller.join()
    return passed, failed, ran.returncode
