"""Two terminals in place of the two serial ports of a page's commands. A terminal of a machine alone has no parity, so that is
the one thing which is not seen, and stty says that it could not do all."""
import os
import pty
import sys
import termios
import time

# Of each port the end that a test writes to, and the end that the commands read.
ports = [pty.openpty(), pty.openpty()]


def with_ports(commands):
    """The commands, with the terminals in place of the ports that a page names."""
    for k, (_, port) in enumerate(ports):
        commands = commands.replace(f'/dev/ttyUSB{k}', os.ttyname(port))
    return commands


def wait_for(is_so, seconds=60):
    """Waits until it is so, and no longer than this: whether it is so."""
    end = time.monotonic() + seconds
    while not is_so():
        if time.monotonic() > end:
            return False
        time.sleep(0.01)
    return True


def lines_of(path):
    """How many lines a file has by now: none where it is not there."""
    return len(open(path).readlines()) if os.path.exists(path) else 0


def must_wait_for(is_so):
    if not wait_for(is_so):
        sys.exit('it takes too long')


def is_set(port):
    """Whether a port is set as the page sets it."""
    iflag, _, cflag, lflag, _, speed, _ = termios.tcgetattr(port)
    return (speed == termios.B38400 and cflag & termios.CSIZE == termios.CS8 and cflag & termios.PARODD
            and not cflag & termios.CSTOPB and not lflag & (termios.ICANON | termios.ECHO) and not iflag & termios.IXON)


def send(k, sent):
    """Sends bytes to a port, once it is set."""
    must_wait_for(lambda: is_set(ports[k][1]))
    os.write(ports[k][0], sent)


def close_ports():
    for line, port in ports:
        os.close(line)
        os.close(port)
