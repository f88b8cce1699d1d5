"""Lines that can't be read, and more waiting than may wait."""

# The first is empty, the second a space.
UNREAD = """\

 
c 1 - - 
 c 1 - -
cc 1 - -
q
n
n e f 3
n e f 03 4 - 2 d 1 1 0
n e f 3 -0 - 2 d 1 1 0
n e f +3 4 - 2 d 1 1 0
n e f 3 4  - 2 d 1 1 0
n e f 3 128 - 2 d 1 1 0
n e f 3 -129 - 2 d 1 1 0
n e f 4294967296 4 - 2 d 1 1 0
n e f 3 4 - 4294967296 d 1 1 0
n e f 3 4 - 2 x 1 1 0
n e f 3 4 - 2 d 2 1 0
n e f 3 4 - 2 d 1 1
n e f 3 4 - 2 d 1 1 18446744073709551616
n x f 3 - - 2 d 1 1 0
n x f - 4 - 2 d 1 1 0
n e f - 4 - 2 d 1 1 0
n e f 3 - - 2 d 1 1 0
n E f 3 4 - 2 d 1 1 0
r
r 3FF -
r 3ff0000000000000 -
r 3FF00000000000000 -
r 3FF000000000000G -
r 3FF0000000000000
r 3FF0000000000000 
r 3FF0000000000000 1
r 3FF0000000000000 1:
r 3FF0000000000000 :1
r 3FF0000000000000 1:1,
r 3FF0000000000000 1:1,2
r 3FF0000000000000 1:1:1
r 3FF0000000000000 -,1:1
r 3FF0000000000000 1:-1
r 3FF0000000000000 01:1
r 3FF0000000000000 4294967296:1
r 3FF0000000000000 1;1
b
b 0
b 100 -
b -1 -
b 00 -
h 0
h 100 3FF0000000000000
h 0 3FF
u
u 0 0
u 100
c
c 1
c 1 -
c -1 - -
c 1 4294967296 -
c 18446744073709551616 - -
c 1 - - -
k
k 8 0
k 0
k 0 4294967296
j 0 0 0 4
j 8 0 0 4 -
j 0 8 0 4 -
j 0 0 8 4 -
j 0 0 0 -1 -
j 0 0 0 - -
m 1
m 1 1 1
m -1 -
m 18446744073709551616 -
g
g 3FF
g 3FF0000000000000,
f
f 1,
f 4294967296
f a
=
=x
c 1 - -\r
c 1\t- -
?
""".split("\n")[:-1]


def unreadable(book):
    """They change nothing; 255 bytes are read, 256 are not."""
    s = book.new("lines_that_cannot_be_read")
    s += UNREAD
    s.exponential(start=5)
    s.record("1:1", 1.0)
    s += UNREAD
    full = "r 3FF0000000000000 " + ",".join(["1000000000:1"] * 18)
    s.append(full + ",10")
    s += [full + "0" * (most - len(full)) for most in (255, 256)]
    s.append("#" + "x" * 300)
    s.collect(9)


def too_much_waits(book):
    """Over 200 bounds or 32 keys: the line that passes it can't be read, and what waited stays."""
    s = book.new("too_much_waits")
    s += ["g " + ",".join(f"{k:016X}" for k in range(12))] * 17 + ["g 3FF0000000000000"] * 9
    s.explicit()
    s.record("-", 1.0)
    s += ["f 1,2,3,4,5,6,7,8,9,10,11,12"] * 3 + ["f 1,2,3,4,5,6,7,8", "f 9", "f -"]
    s.exponential()
    s.record("-", 1.0)
    s.exponential()
    s.record("-", 1.0)
    s.collect()


def write(book):
    unreadable(book)
    too_much_waits(book)
