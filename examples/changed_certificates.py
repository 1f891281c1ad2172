#!/usr/bin/env python3
"""Changes each byte of a certificate by one, in turn, and has both checkers judge it: they have to say the same.

    examples/changed_certificates.py IMAGE CERT

It says of each byte at which they differ, and ends with status 1 where there is one.
"""
import pathlib
import subprocess
import sys
import tempfile

image, certificate = sys.argv[1], pathlib.Path(sys.argv[2]).read_bytes()
failed = 0
with tempfile.TemporaryDirectory() as folder:
    changed = pathlib.Path(folder) / "changed"
    for place, byte in enumerate(certificate):
        changed.write_bytes(certificate[:place] + bytes([(byte + 1) % 256]) + certificate[place + 1 :])
        one = subprocess.run(["./elide", "check", image, changed], stderr=subprocess.PIPE)
        other = subprocess.run([sys.executable, "tools/check_certificate.py", image, changed], stdout=subprocess.PIPE)
        if one.stderr != other.stdout or one.returncode != other.returncode:
            print(f"byte {place}: {one.returncode} {one.stderr!r}, {other.returncode} {other.stdout!r}")
            failed += 1
sys.exit(failed > 0)
