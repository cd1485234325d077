"""Firefox by its own protocol, Marionette, for what has to work there too; everything stays on 127.0.0.1."""

import json
import os
import socket
import subprocess

from desk_looks.browser import LONG, Differs, free_ports, wait_until

PREFERENCES = {"network.proxy.type": 0, "network.auth.confirmAuth.enabled": False, "toolkit.telemetry.enabled": False,
               "datareporting.policy.dataSubmissionEnabled": False}


class Firefox:
    """A Firefox with a profile of its own in this folder."""

    def __init__(self, folder):
        port, profile = free_ports(1)[0], os.path.join(folder, "firefox")
        os.mkdir(profile)
        with open(os.path.join(profile, "user.js"), "w", encoding="utf-8") as file:
            file.write("".join(f'user_pref("{name}", {json.dumps(value)});\n' for name, value in [("marionette.port", port), *PREFERENCES.items()]))
        words = ["firefox-esr", "--headless", "--marionette", "--no-remote", "--profile", profile]
        self.process = subprocess.Popen(words, env=dict(os.environ, HOME=folder), stdout=subprocess.DEVNULL, stderr=subprocess.DEVNULL)
        self.socket, self.count = None, 0
        wait_until(lambda: self.is_up(port), "Firefox", 2 * LONG)
        self.answer()
        self.call("WebDriver:NewSession", {"capabilities": {"alwaysMatch": {"unhandledPromptBehavior": "ignore"}}})

    def is_up(self, port):
        try:
            self.socket = socket.create_connection(("127.0.0.1", port), LONG)
            return True
        except OSError:
            return False

    def answer(self):
        """A message: its length in digits, a colon, and JSON."""
        head = b""
        while not head.endswith(b":"):
            head += self.socket.recv(1)
        body = b""
        while len(body) < int(head[:-1]):
            body += self.socket.recv(int(head[:-1]) - len(body))
        return json.loads(body)

    def call(self, name, words):
        self.count += 1
        text = json.dumps([0, self.count, name, words]).encode()
        self.socket.sendall(b"%d:%s" % (len(text), text))
        _, _, fault, value = self.answer()
        if fault:
            raise Differs(f"Firefox, {name}: {fault['error']}")
        return value

    def go(self, address):
        self.call("WebDriver:Navigate", {"url": address})

    def script(self, text):
        return self.call("WebDriver:ExecuteScript", {"script": text, "args": []})["value"]

    def asks_for_login(self, request):
        """Whether it asks for one where the page makes this request."""
        self.script(f"{request}.catch(() => null); return null;")
        try:
            return wait_until(lambda: "sign in" in self.question(), "a question for a login", 10)
        except Differs:
            return False

    def question(self):
        """What it asks in a window of its own; "" where it asks nothing."""
        try:
            return self.call("WebDriver:GetAlertText", {})["value"]
        except Differs:
            return ""

    def end(self):
        self.process.terminate()
        self.process.wait(LONG)
