"""Runs a program, and says what it took: processes.py PROGRAM WORD.., which reads standard input.

It prints the processor time in milliseconds and the greatest memory in MB. A process is told the memory of the
one that started it if that was greater, so `measured` starts this file, which is small, to start the program.
"""
import os
import subprocess
import sys
import tempfile


def request(method, target, text):
    body = text.encode()
    return b"%s %s HTTP/1.1\r\nContent-Length: %d\r\n\r\n%s" % (method.encode(), target.encode(), len(body), body)


def measured(words, given=b""):
    """The processor time in milliseconds and the greatest memory in MB of a command that reads this."""
    with tempfile.TemporaryFile() as source:
        source.write(given)
        source.seek(0)
        said = subprocess.run([sys.executable, __file__, *words], stdin=source, stdout=subprocess.PIPE, check=True)
    time, memory = said.stdout.split()
    return float(time), float(memory)


def main():
    process = subprocess.Popen(sys.argv[1:], stdout=subprocess.DEVNULL)
    _, status, usage = os.wait4(process.pid, 0)
    if status != 0:
        raise SystemExit("%s ended with status %d" % (" ".join(sys.argv[1:]), status))
    print((usage.ru_utime + usage.ru_stime) * 1000, usage.ru_maxrss / 1024)


if __name__ == "__main__":
    main()
