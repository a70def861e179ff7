"""Instructions by callgrind, for bench/run and bench/share."""
import os
import re
import subprocess


def run(*words, **more):
    return subprocess.run(words, check=True, stdout=subprocess.PIPE, **more).stdout


def instructions(words, inside, **more):
    """By callgrind, inside one function. It counts `rep movsb` by the byte; the size from which the C library copies with it is set to
    that library's default for AVX2, so that it does not differ by processor."""
    told = subprocess.run(["valgrind", "--tool=callgrind", "--callgrind-out-file=/dev/null", f"--toggle-collect={inside}", *words],
                          check=True, stdout=subprocess.PIPE, stderr=subprocess.PIPE, **more,
                          env={**os.environ, "GLIBC_TUNABLES": "glibc.cpu.x86_rep_movsb_threshold=8192"}).stderr.decode()
    return int(re.search(r"Collected : (\d+)", told).group(1))
