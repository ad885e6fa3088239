"""student OPERATIONS: a register as a student may write it, with a writer and two readers; the lines with rec record it. Its values are 0 to 3: the
lowest set bit is the value, and a write sets its bit and then clears the lower ones downwards. It is regular, and not atomic."""
import os
import random
import sys
import threading

sys.path.insert(0, os.path.join(os.path.dirname(os.path.dirname(os.path.dirname(os.path.abspath(__file__)))), "include", "python"))
import ring_register


class Unary:
    def __init__(self):
        self.bits = [1, 0, 0, 0]

    def write(self, value):
        self.bits[value] = 1
        for i in reversed(range(value)):
            self.bits[i] = 0

    def read(self):
        for value in range(4):
            if self.bits[value]:
                return value
        return 4


rec = ring_register.Recorder(readers=2)
register = rec.watch(Unary())
count = int(sys.argv[1])


def writer():
    for _ in range(count):
        register.write(random.randrange(4))


def reader():
    for _ in range(count):
        register.read()


sys.setswitchinterval(1e-6)
threads = [threading.Thread(target=each) for each in (writer, reader, reader)]
for thread in threads:
    thread.start()
for thread in threads:
    thread.join()
rec.print("register 0 4", sys.stdout)
