"""Runs a program of the packages as often as it is asked, each time in a process of its own, and stops it at one of the calls that it makes
into the system: a moment.

It has imported the packages before, so a run takes a few hundredths of a second. It is asked by a line of JSON on a socket, which is its first
argument, and the process that it forks says there `at CALL`, and waits for a byte, or runs to its end; then the status is said.
"""

import ctypes
import gc
import importlib
import json
import os
import pkgutil
import runpy
import socket
import sys
import time
from types import FrameType
from typing import Any, Callable, Dict, List, Optional

# Calls into the system of these modules, and what of these is none, or finds out nothing that anybody changes meanwhile.
FUNCTIONS = {"posix", "_io", "io", "fcntl", "select", "_socket", "_posixsubprocess"}
TYPES = {"FileIO", "BufferedReader", "BufferedWriter", "BufferedRandom", "TextIOWrapper", "socket", "SocketIO", "poll", "epoll"}
NONE = {"fspath", "fsencode", "getpid", "getuid", "geteuid", "getppid", "urandom", "cpu_count", "get_terminal_size", "getcwd", "getenv", "putenv",
        "WIFEXITED", "WIFSIGNALED", "WEXITSTATUS", "waitstatus_to_exitcode", "text_encoding", "fileno", "tell", "readable", "writable", "seekable",
        "isatty", "gettimeout", "settimeout", "getpeername", "getsockname", "detach", "inet_aton", "inet_pton", "register", "umask",
        "device_encoding", "reconfigure", "sysconf", "setsockopt", "fileno", "getblocking"}
# Functions of the library that ask for the same again and again: looks at the folders above, and what imports.
PASSED_OVER = {"_joinrealpath", "_joinrealpath_strict"}
LIBRARIES = ("importlib", "gettext", "argparse", "locale", "encodings")
SHORTEST = 0.15
# Far behind the last moment of any run.
NEVER = 1 << 40


class Moments:
    """Counts calls into the system, and stops before one of them, and again for as long as it is told to."""

    def __init__(self, last: int, heard: socket.socket):
        self.left, self.heard = last, heard
        self.calls: List[str] = []

    def on_event(self, frame: FrameType, event: str, function: Any) -> None:
        """Is called for each call of a function in C."""
        if event != "c_call" or frame.f_code.co_name in PASSED_OVER:
            return
        name = name_of(function)
        caller = caller_of(frame) if name else ""
        if caller:
            self.at(f"{name} in {caller}")

    def at_function(self, name: str, frame: FrameType) -> None:
        """A call through ctypes."""
        if sys.getprofile() is not None:
            self.at(f"ctypes.{name} in {caller_of(frame)}")

    def at(self, call: str) -> None:
        """One moment."""
        self.calls.append(call)
        if self.left == 0 and stop(self.heard, call):
            return
        self.left -= 1
        if self.left < 0:
            sys.setprofile(None)


class ByNumber:
    """A function of a C library that is called through ctypes, of which Python tells nobody: each call is a moment, too."""

    running: Optional[Moments] = None

    def __init__(self, function: Any):
        object.__setattr__(self, "function", function)

    def __getattr__(self, name: str) -> Any:
        return getattr(self.function, name)

    def __setattr__(self, name: str, value: Any) -> None:
        setattr(self.function, name, value)

    def __call__(self, *given: Any) -> Any:
        if ByNumber.running is not None:
            ByNumber.running.at_function(self.function.__name__, sys._getframe(1))
        return self.function(*given)


def count_ctypes() -> None:
    """Has the functions of libraries that are opened from here on count as moments."""
    opened = ctypes.CDLL.__getitem__
    setattr(ctypes.CDLL, "__getitem__", lambda library, name: ByNumber(opened(library, name)))


def stop(heard: socket.socket, call: str) -> bool:
    """Says that this process stands at a call, and waits for a byte. Whether it is to stop at the next one, too."""
    heard.sendall(f"at {os.getpid()} {call}\n".encode())
    return heard.recv(1) == b"+"


def name_of(function: Any) -> str:
    """The name of a function that calls into the system, or nothing."""
    name = getattr(function, "__name__", "")
    owner = getattr(function, "__self__", None)
    if name in NONE or name.startswith("_"):
        return ""
    if getattr(function, "__module__", None) in FUNCTIONS:
        return f"{function.__module__}.{name}".replace("posix.", "os.")
    kind = next((each.__name__ for each in type(owner).__mro__ if each.__name__ in TYPES and each.__module__ in FUNCTIONS), "")
    return f"{kind}.{name}" if kind else ""


def caller_of(frame: FrameType) -> str:
    """The function of the packages that makes a call, or else of the library; nothing if it is the library's own affair."""
    each: Optional[FrameType] = frame
    while each is not None:
        module = str(each.f_globals.get("__name__", ""))
        if module.startswith(LIBRARIES):
            return ""
        if module.startswith("vault"):
            return f"{module}.{each.f_code.co_qualname}"
        each = each.f_back
    return frame.f_code.co_qualname


def shortly(sleep: Callable[[float], None]) -> Callable[[float], None]:
    """Pauses that are shortened: whatever is under way on one machine arrives within that."""
    return lambda seconds: sleep(min(seconds, SHORTEST))


def run_module(start: str) -> int:
    """Runs a program as its package, or by the function that its script calls: its status."""
    module, _, function = start.partition(":")
    try:
        if function:
            return int(getattr(importlib.import_module(module), function)() or 0)
        runpy.run_module(module, run_name="__main__", alter_sys=True)
    except SystemExit as end:
        if end.code is None or isinstance(end.code, int):
            return end.code or 0
        print(end.code, file=sys.stderr)
        return 1
    return 0


def run_in_moments(asked: Dict[str, Any], heard: socket.socket) -> None:
    """Runs a program in this process, up to a moment, and ends this process."""
    streams = [os.open(os.devnull, os.O_RDONLY), *(os.open(path, os.O_WRONLY | os.O_CREAT | os.O_TRUNC, 0o600) for path in asked["said"])]
    for number, stream in enumerate(streams):
        os.dup2(stream, number)
        os.close(stream)
    os.environ.clear()
    os.environ.update(asked["environment"])
    os.chdir(asked["folder"])
    sys.argv = [asked["start"], *asked["words"]]
    setattr(time, "sleep", shortly(time.sleep))
    moments = Moments(NEVER if asked["moment"] is None else asked["moment"], heard)
    status = 70
    try:
        if asked["moment"] is not None or asked["calls"]:
            ByNumber.running = moments
            sys.setprofile(moments.on_event)
        status = run_module(asked["start"])
    except BaseException as error:  # whatever it is, it is what the program would have shown
        sys.setprofile(None)
        sys.excepthook(type(error), error, error.__traceback__)
    finally:
        sys.setprofile(None)
        try:
            sys.stdout.flush()
        except OSError:
            status = status or 120
        if asked["calls"]:
            with open(asked["calls"], "w", encoding="utf-8") as file:
                file.write("\n".join(moments.calls))
        os._exit(status)


def import_all(packages: List[str]) -> None:
    """Imports all modules of packages, and what they import late."""
    for name in packages:
        package = importlib.import_module(name)
        for module in pkgutil.walk_packages(package.__path__, name + "."):
            if not module.name.endswith("__main__"):
                importlib.import_module(module.name)
    for late in ("concurrent.futures.thread", "encodings.idna", "unittest", "rich.progress", "tqdm", "platformdirs.unix"):
        importlib.import_module(late)


def serve(heard: socket.socket) -> None:
    """Reads what is asked, and runs each in a process of its own."""
    for line in heard.makefile("rb"):
        asked = json.loads(line)
        child = os.fork()
        if child == 0:
            run_in_moments(asked, heard)
        status = os.waitstatus_to_exitcode(os.waitpid(child, 0)[1])
        heard.sendall(f"ended {status}\n".encode())


if __name__ == "__main__":
    count_ctypes()
    import_all(sys.argv[2:])
    gc.freeze()
    serve(socket.socket(fileno=int(sys.argv[1])))
