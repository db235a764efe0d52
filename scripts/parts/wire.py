"""A wire between two serial ports: pseudo terminals whose bits are counted. Each byte takes ten bits at the rate that its
sender has set, and comes as another one where the receiver has set another rate."""
import os
import select
import termios
import threading
import time
import tty

RATES = {getattr(termios, f"B{rate}"): rate for rate in (9600, 19200, 38400, 57600, 115200)}


class Wire:
    """Two ports and the wire between them, until it is cut."""

    def __init__(self):
        (self.one, self.first), (self.two, self.second) = os.openpty(), os.openpty()
        for end in (self.one, self.first, self.two, self.second):
            tty.setraw(end)
        for end in (self.first, self.second):
            how = termios.tcgetattr(end)
            how[4] = how[5] = termios.B9600
            termios.tcsetattr(end, termios.TCSANOW, how)
        self.is_cut = False
        self.threads = [threading.Thread(target=self.carry, args=ends) for ends in ((self.one, self.two), (self.two, self.one))]
        for thread in self.threads:
            thread.start()

    def paths(self):
        return os.ttyname(self.first), os.ttyname(self.second)

    def rate(self, end):
        return RATES.get(termios.tcgetattr(end)[5], 0)

    def carry(self, here, there):
        """What one side says to the other one, a few bytes at a time, in the time that they take."""
        free = 0.0
        while not self.is_cut:
            if not select.select([here], [], [], 0.05)[0]:
                continue
            came = os.read(here, 64)
            rate = self.rate(here)
            free = max(free, time.monotonic()) + len(came) * 10 / rate
            time.sleep(max(0.0, free - time.monotonic()))
            if rate != self.rate(there):
                came = bytes(byte * 7 + 3 & 0xFF for byte in came)
            os.write(there, came)

    def cut(self):
        self.is_cut = True
        for thread in self.threads:
            thread.join()
        for end in (self.one, self.first, self.two, self.second):
            os.close(end)
