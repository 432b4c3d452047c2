"""What an installation tells of its proof: `vlm --proof` prints it, and each package with proved code has it."""

import hashlib

from project import RECORD, commit

PROVED = """version {version}
proved {proved}
kit {kit}
made of {made}
program {program} libexec/vlm/vlm
archive {archive} libvlm_capi.a, of which libvlm.a and libvlm.so are made

The last two lines are SHA-256 checksums: `sha256sum` of the installed program gives the first one. The crates were
proved at the first commit, and all else was made of the second one. To check the proof again, take the second one and a
kit of the same logic, and run `./vlm prove`. It notes commit, kit and both checksums in crates/vlm/out/vlm.proved.
docs/PROOFS.md says what is proved, and what is trusted.
"""

UNPROVED = """version {version}
not proved

The program and the library were built without a proof, to try an installation. Do not rely on them.
"""


def sum_of(file):
    return hashlib.sha256(file.read_bytes()).hexdigest()


def record_text(program, archive, version):
    """What the last proof noted, if it made this program and this archive."""
    sums = [sum_of(program), sum_of(archive)]
    noted = RECORD.read_text().splitlines() if RECORD.exists() else []
    if len(noted) != 4 or [noted[0].split()[0], noted[3]] != sums:
        return UNPROVED.format(version=version)
    return PROVED.format(version=version, proved=noted[1], kit=noted[2], made=commit(), program=sums[0],
                         archive=sums[1])
