"""The program in a folder, and the calls of the system that a run of it makes on its logs.

`kill` and `faults` in this folder use it. `calls.c`, also in this folder, notes the calls and makes them fail; `cc`
builds it, and it is preloaded: it works where the program calls the system by the symbols of the C library. `strace`
makes calls fail too, including those that the C library makes by itself; but it counts them for each thread anew.
"""

import os
import shutil
import signal
import subprocess
import time

from outcomes import BUILT, LIMIT, Wrong, wanted

SOURCE = os.path.join(os.path.dirname(os.path.realpath(__file__)), "calls.c")

# The most logs of a run, and the notes that name one of them.
MOST_LOGS = 16
OF_A_LOG = ("open", "write", "cut", "synced")


def path_of(first, log):
    """The path of the log with this number, counted from 1, by that of the first one."""
    return first if log == 1 else f"{first}.{log}"


class Program:
    """A copy of the program, with its logs. `why` says why its calls aren't seen, if they aren't."""

    def __init__(self, room):
        room = os.path.realpath(room)
        self.path, self.log, self.image = (os.path.join(room, name) for name in ("writepath", "log", "image"))
        self.library, self.notes, self.why = os.path.join(room, "calls.so"), os.path.join(room, "notes"), None
        shutil.copyfile(BUILT, self.path)
        os.chmod(self.path, 0o755)
        if shutil.which("cc") is None:
            self.why = "there is no cc"
            return
        line = ["cc", "-std=c11", "-O1", "-U_FORTIFY_SOURCE", "-shared", "-fPIC", "-o", self.library, SOURCE]
        built = subprocess.run(line, capture_output=True, text=True, timeout=LIMIT)
        if built.returncode != 0:
            self.why = f"cc fails: {built.stderr[:200]}"
            return
        # A log of one record of 24 bytes.
        self.run([], "client 1\nput a 1\ncommit sync\n", "")
        if self.left() is None or ["synced", "24"] not in self.told():
            self.why = "the library doesn't see the program's calls"

    def line(self, options):
        """The words of a run."""
        return [self.path, self.log, "run", *options]

    def environment(self, fail):
        """The environment of a run whose calls are noted, if they can be, and in which a call fails this way, if one
        should. Where `fail` is None they aren't noted.
        """
        with open(self.notes, "w"):
            pass
        if self.why is not None or fail is None:
            return dict(os.environ)
        more = {"LD_PRELOAD": self.library, "CALLS_FILE": self.log, "CALLS_NOTES": self.notes, "CALLS_FAIL": fail}
        return {**os.environ, **more}

    def run(self, options, text, fail, **more):
        """The status of a run of this script, and what it prints."""
        line, environment = self.line(options), self.environment(fail)
        done = subprocess.run(line, input=text, capture_output=True, text=True, env=environment, timeout=LIMIT, **more)
        return done.returncode, done.stdout

    def stopped_before(self, nth, words, text):
        """A process of the program, with this text as its input, that is stopped before this call on the logs or has
        ended; and whether it is stopped.
        """
        with open(self.image, "w+") as file:
            file.write(text)
            file.seek(0)
            line, environment = [self.path, self.log, *words], self.environment(f"log {nth} stop")
            process = subprocess.Popen(line, stdin=file, stdout=subprocess.PIPE, text=True, env=environment)
        end, how = time.monotonic() + LIMIT, os.WEXITED | os.WSTOPPED | os.WNOWAIT | os.WNOHANG
        while time.monotonic() < end:
            found = os.waitid(os.P_PID, process.pid, how)
            if found is not None:
                return process, found.si_code == os.CLD_STOPPED
            time.sleep(0.0002)
        process.kill()
        process.wait()
        raise Wrong(f"the program stopped before call {nth}, or ended")

    def printed_by(self, process):
        """What a process prints that is stopped and goes on, or has ended."""
        process.send_signal(signal.SIGCONT)
        try:
            printed, _ = process.communicate(timeout=LIMIT)
        finally:
            process.kill()
            process.wait()
        wanted(process.returncode == 0, f"status 0, not {process.returncode}: {printed[:200]}")
        return printed

    def there(self, count):
        """What the first logs have, this many."""
        contents = []
        for log in range(1, count + 1):
            with open(path_of(self.log, log), "rb") as file:
                contents.append(file.read())
        return contents

    def told_of_all(self):
        """The notes of the last run, each as a list of words. Those of a file have the log's number after the first
        word.
        """
        with open(self.notes) as file:
            return [line.split(" ") for line in file.read().split("\n")[:-1]]

    def told(self, log=1):
        """The notes of the last run on one of its logs, from the opening of its file on: without the log's number."""
        return notes_of(self.told_of_all(), log)

    def left(self, log=1):
        """What a log has, if its file is there. The file is removed."""
        path = path_of(self.log, log)
        if not os.path.exists(path):
            return None
        with open(path, "rb") as file:
            content = file.read()
        os.remove(path)
        return content

    def left_of_all(self):
        """What each of the most logs that there may be has, or None. The files are removed."""
        return [self.left(log) for log in range(1, MOST_LOGS + 1)]

    def recovered(self, content, number=None):
        """What the program recovers from these bytes, as a log with this number or without one."""
        return self.recovered_of_all([content], [] if number is None else ["--number", str(number)])

    def recovered_of_logs(self, contents):
        """What the program recovers from these bytes as several logs. A file isn't there where None is its content."""
        return self.recovered_of_all(contents, ["--logs", str(len(contents))])

    def recovered_of_all(self, contents, options):
        for log, content in enumerate(contents, 1):
            path = path_of(self.image, log)
            if content is not None:
                with open(path, "wb") as file:
                    file.write(content)
            elif os.path.exists(path):
                os.remove(path)
        line = [self.path, self.image, "recover", *options]
        done = subprocess.run(line, capture_output=True, text=True, timeout=LIMIT)
        wanted(done.returncode == 0, f"status 0 of recover, not {done.returncode}: {done.stdout[:200]}")
        return done.stdout


def notes_of(notes, log):
    """The notes on the log with this number, without that number, and those that are of no log: from the opening of its
    file on. What is before that says nothing of it, such as a sync of the folder.
    """
    own, is_open = [], False
    for words in notes:
        is_open = is_open or words == ["open", str(log)]
        if words[0] not in OF_A_LOG:
            own += [words] if is_open or words[0] == "fails" else []
        elif words[1] == str(log):
            own.append([words[0], *words[2:]])
    return own
