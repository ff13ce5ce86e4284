"""Chromium with one page, over its pipe: keys go through the browser's own input."""
import json
import os
import shutil
import subprocess
import sys
import tempfile
import time


def name():
    for known in ["chromium", "chromium-browser", "google-chrome"]:
        if shutil.which(known):
            return known
    sys.exit("%s: there is no Chromium; Debian's package is chromium" % os.path.basename(sys.argv[0]))


class Page:
    def __init__(self, path, ready):
        """Opens the page and waits until `ready` holds in it."""
        self.profile = tempfile.mkdtemp()
        there, self.to = os.pipe()
        self.back, here = os.pipe()

        def descriptors():
            # The browser reads from 3 and writes to 4; the pipes themselves may have these numbers.
            os.dup2(there, 103)
            os.dup2(here, 104)
            os.dup2(103, 3)
            os.dup2(104, 4)

        options = ["--headless", "--no-sandbox", "--disable-gpu", "--remote-debugging-pipe", "--user-data-dir=" + self.profile]
        self.process = subprocess.Popen([name(), *options, "about:blank"], preexec_fn=descriptors, close_fds=False,
                                        stdout=subprocess.DEVNULL, stderr=subprocess.DEVNULL)
        os.close(there)
        os.close(here)
        self.number, self.session, self.rest = 0, None, b""
        target = self.call("Target.createTarget", url="file://" + path)["targetId"]
        self.session = self.call("Target.attachToTarget", targetId=target, flatten=True)["sessionId"]
        for _ in range(100):
            if self.value(ready):
                return
            time.sleep(0.1)
        sys.exit("%s does not become ready" % path)

    def call(self, method, **params):
        self.number += 1
        message = {"id": self.number, "method": method, "params": params}
        if self.session:
            message["sessionId"] = self.session
        os.write(self.to, json.dumps(message).encode() + b"\0")
        while True:
            while b"\0" not in self.rest:
                more = os.read(self.back, 1 << 16)
                if not more:
                    sys.exit("the browser went away")
                self.rest += more
            one, self.rest = self.rest.split(b"\0", 1)
            answer = json.loads(one)
            if answer.get("id") == self.number:
                return answer["result"]

    def value(self, expression):
        return self.call("Runtime.evaluate", expression=expression, returnByValue=True)["result"].get("value")

    def key(self, key, code, text=""):
        self.call("Input.dispatchKeyEvent", type="keyDown", key=key, code=key, windowsVirtualKeyCode=code, text=text)
        self.call("Input.dispatchKeyEvent", type="keyUp", key=key, code=key, windowsVirtualKeyCode=code)

    def end(self):
        self.call("Browser.close")
        self.process.wait()
        os.close(self.to)
        os.close(self.back)
        shutil.rmtree(self.profile, ignore_errors=True)
