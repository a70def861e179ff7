"""The program that makes the calls of the library from C, tests/calls.c: it is built, asked and ended here, for tests/calls and tests/level."""
import os
import struct
import subprocess

ROOT = os.path.dirname(os.path.dirname(os.path.abspath(__file__)))
REQUEST = struct.Struct("<8Q134Q480q30q30q16q30I16I1920I128i")  # struct request
EVERY_CALL, ONLY_CASH, ONLY_FIND, ONLY_AMOUNTS = range(4)


def request(file_length, lending_length=0, borrowing_length=0, only=EVERY_CALL, pattern=0, parts=0, room=0, fill=0):
    """A request in which no plan is held as values; the bytes of the file and the rates of the two lists follow it."""
    head = struct.pack("<8Q", file_length, lending_length, borrowing_length, only, pattern, parts, room, fill)
    return head + bytes(REQUEST.size - len(head))


def built(name):
    """The driver, as target/NAME, linked with crates/becketgrape/out/libbecketgrape.a; None if it cannot be built."""
    program = os.path.join(ROOT, "target", name)
    build = ["gcc", "-std=c11", "-O2", "-Wall", "-Wextra", "-pedantic", "-Werror", "-I", os.path.join(ROOT, "include"), "-o", program]
    sources = [os.path.join(ROOT, "tests/calls.c"), os.path.join(ROOT, "crates/becketgrape/out/libbecketgrape.a")]
    if subprocess.run(build + sources).returncode != 0:
        print("the driver was not built")
        return None
    return subprocess.Popen([program], stdin=subprocess.PIPE, stdout=subprocess.PIPE)


def asked(driver, request, lines):
    """Its answer, so many lines; empty from where it died."""
    try:
        driver.stdin.write(request)
        driver.stdin.flush()
    except BrokenPipeError:
        pass
    return [driver.stdout.readline().decode().rstrip("\n") for _ in range(lines)]


def ended(driver):
    """Whether it ends well, with nothing more to ask."""
    driver.stdin.close()
    if driver.wait() != 0:
        print(f"the driver ended with status {driver.returncode}")
    return driver.returncode == 0
