"""registers WORDS: like registers.c, with ring_register.py: by hand, and with watched operations; without WORDS no event."""
import os
import sys

sys.path.insert(0, os.path.join(os.path.dirname(os.path.dirname(os.path.dirname(os.path.abspath(__file__)))), "include", "python"))
import ring_register

rec = ring_register.Recorder(3, int(sys.argv[1]) if sys.argv[1:] else 8)
if not sys.argv[1:]:
    rec.print("register 0", sys.stdout)
    sys.exit()
for readers in (0, 65):
    try:
        ring_register.Recorder(readers)
    except ValueError:
        continue
    sys.exit(2)
# (an earlier round, which is discarded)
rec.read(3)
rec.restart()
rec.write(1)
with rec.reading(1) as got:
    got(1)
rec.read(2)
rec.got(2, 0)
rec.wrote()


class Register:
    value = 0

    def set(self, value):
        self.value = value

    def get(self):
        return self.value


watched = rec.watch(Register(), write="set", read="get")
rec.read(3)
watched.set(2**64 - 1)
rec.got(3, 2**64 - 1)
if watched.get() != watched.value:
    sys.exit(3)
rec.print("register 0", sys.stdout)
