"""The time and the memory that one run of a program takes.

A program is charged with the memory of the process that starts it. So this file is also that process, which is small:
timing.py PATIENCE GIVEN TAKEN WORD.. writes seconds, KiB at the peak and exit status."""
import os
import signal
import sys
import time


def timed(words, given, taken=os.devnull, environment=None, patience=0):
    """Seconds, KiB at the peak and exit status of a run from the file `given` to the file `taken`. Where a signal ended it the status is below 0; so it
    is stopped after `patience` seconds, but for 0."""
    import subprocess  # not above: it would make the small process larger

    run = [sys.executable, '-I', '-S', os.path.realpath(__file__), str(patience), given, taken, *words]
    seconds, peak, status = subprocess.run(run, env=environment, stdout=subprocess.PIPE, check=True).stdout.split()
    return float(seconds), int(peak), int(status)


def main(patience, given, taken, *words):
    files = [(os.POSIX_SPAWN_OPEN, 0, given, os.O_RDONLY, 0), (os.POSIX_SPAWN_OPEN, 1, taken, os.O_WRONLY | os.O_CREAT | os.O_TRUNC, 0o644)]
    began = time.perf_counter()
    child = os.posix_spawnp(words[0], words, os.environ, file_actions=files)
    signal.signal(signal.SIGALRM, lambda *_: os.kill(child, signal.SIGKILL))
    signal.setitimer(signal.ITIMER_REAL, float(patience))
    _, status, usage = os.wait4(child, 0)
    print(time.perf_counter() - began, usage.ru_maxrss, os.waitstatus_to_exitcode(status))


if __name__ == '__main__':
    main(*sys.argv[1:])
