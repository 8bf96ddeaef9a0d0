"""A scratch copy of the launcher ./rela for its tests, over crates, an `rt` and a program that only pretend."""
import os
import shutil
import subprocess
import time

TOP = os.path.dirname(os.path.dirname(os.path.dirname(os.path.realpath(__file__))))
CRATES = "a:\nb: a\nc: a\nd: b c\nrela_main: d\na_tests: a\n"


class Copy:
    def __init__(self, room):
        self.room, self.top, self.notes = room, f"{room}/repo", f"{room}/notes"
        for it in ("rela", "tools/build.py", "tools/lanes.py"):
            os.makedirs(os.path.dirname(f"{self.top}/{it}"), exist_ok=True)
            shutil.copy2(f"{TOP}/{it}", f"{self.top}/{it}")
        os.makedirs(f"{room}/bin")
        shutil.copy2(f"{TOP}/tools/fakes/rt", f"{room}/bin/rt")
        with open(f"{TOP}/tools/fakes/program") as it:
            self.program = it.read()
        self.write("crates.txt", CRATES)
        for line in CRATES.splitlines():
            self.write(f"crates/{line.split(':')[0]}/src/lib.rt", line)
        self.write("crates/rela_main/src/main.rt", self.program)
        for it in ("x", "status"):
            self.write(it, "0")
        others = [it for it in os.environ["PATH"].split(":") if not os.path.exists(f"{it}/rt")]
        self.no_rt = {**os.environ, "PATH": ":".join(others)}
        path = ":".join([f"{room}/bin", *others])
        self.env = {**self.no_rt, "NOTES": self.notes, "TMPDIR": room, "SECONDS": "0.1", "PATH": path}

    def write(self, file, text):
        os.makedirs(os.path.dirname(f"{self.top}/{file}"), exist_ok=True)
        with open(f"{self.top}/{file}", "w") as it:
            it.write(text)

    def start(self, *words, **more):
        open(self.notes, "w").close()
        how = {"cwd": self.top, "env": self.env, "stdin": subprocess.DEVNULL}
        how.update(stdout=subprocess.PIPE, stderr=subprocess.PIPE)
        return subprocess.Popen([f"{self.top}/rela", *words], **{**how, **more})

    def run(self, *words, **more):
        """Returns the status, standard output, standard error, and what `rt` did."""
        call = self.start(*words, **more)
        out, err = call.communicate(timeout=60)
        return call.returncode, out, (err or b"").decode(), self.noted()

    def noted(self):
        with open(self.notes) as it:
            return it.read().splitlines()

    def wait_for(self, what):
        """Returns whether `rt` notes this in time."""
        for _ in range(400):
            if what in self.noted():
                return True
            time.sleep(0.05)
        return False
