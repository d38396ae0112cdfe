"""What the benchmarks share: the least of five whole runs of a command, and LLVM's programs where they are installed."""

import os
import shutil
import subprocess
import sys
import time


def least(command, output=os.devnull):
    """The least of five times in seconds, and the most memory in bytes; what the command writes goes to a file."""
    best, most = None, 0
    for _ in range(5):
        begun = time.monotonic()
        flags = os.O_WRONLY | os.O_CREAT | os.O_TRUNC
        files = [(os.POSIX_SPAWN_OPEN, 1, output, flags, 0o600), (os.POSIX_SPAWN_OPEN, 2, os.devnull, os.O_WRONLY, 0)]
        pid = os.posix_spawnp(command[0], command, os.environ, file_actions=files)
        _, status, used = os.wait4(pid, 0)
        took = time.monotonic() - begun
        if status != 0:
            sys.exit(f"{command} ended with {status}")
        best = took if best is None else min(best, took)
        most = max(most, used.ru_maxrss * 1024)
    return best, most


def milliseconds(command):
    """The least of five times in milliseconds, and the most memory in bytes."""
    took, most = least(command)
    return took * 1000, most


def printed(command):
    """What a command prints, without the line's end."""
    return subprocess.run(command, capture_output=True, text=True).stdout.strip()


def assembler(work):
    """The first `llvm-as` that reads `ptr`, with the flag that version 14 asks for; it writes its bitcode nowhere."""
    path = os.path.join(work, "pointer.ll")
    with open(path, "w") as file:
        file.write("@p = global ptr null\n")
    for command in (["llvm-as-16"], ["llvm-as"], ["llvm-as", "-opaque-pointers"]):
        if shutil.which(command[0]):
            tried = subprocess.run([*command, "-o", os.devnull, path], capture_output=True)
            if tried.returncode == 0 and not tried.stderr:
                return [*command, "-o", os.devnull]
    return None


def optimizer(work):
    """The newest `opt` that reads `ptr`, which reads, checks and prints a module and changes nothing, and its version."""
    path = os.path.join(work, "pointer.ll")
    with open(path, "w") as file:
        file.write("@p = global ptr null\n")
    for command in (["opt-16"], ["opt"], ["opt", "-opaque-pointers"]):
        if shutil.which(command[0]):
            tried = subprocess.run([*command, "-S", "-o", os.devnull, path], capture_output=True)
            if tried.returncode == 0 and not tried.stderr:
                told = printed([command[0], "--version"]).split("LLVM version ")
                return [*command, "-S", "-o", os.devnull], told[-1].split()[0]
    return None, None


def interpreter(path):
    """LLVM's interpreter for a module, with the flag that version 14 asks for."""
    if not shutil.which("lli"):
        return None
    for flags in ([], ["-opaque-pointers"]):
        command = ["lli", "--jit-kind=mcjit", "--force-interpreter", *flags, path]
        if subprocess.run(command, capture_output=True).returncode == 0:
            return command
    return None
