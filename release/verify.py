"""`--verify`: whether the released program is whole and of the sources that stand here; with the kit, whether they make it again."""
from __future__ import annotations

import os
import shutil

from release import build, choice, manifest
from release.sources import TOP, digest_of, differing, has_sources, standing

UNCHECKED = 3  # all that can be checked without the kit is right


def verify(name: str) -> int:
    """The status. What was checked, and what wasn't, is printed."""
    found = choice.released(name)
    if found is None:
        raise choice.NoProgram(choice.why_none(name), choice.MISSING)
    kept = manifest.read()
    print(f"{found.path}: the bytes are those that MANIFEST names, sha256:{kept.programs[name].digest}")
    if not has_sources():
        print("no sources are installed: compare the digest with that of a checkout")
        return UNCHECKED
    here = standing((name,))
    proofs = differing(here, {crate: each for crate, each in kept.crates.items() if crate in here}, proofs_too=True)
    print(f"its sources are those here, in {len(here)} crates" + (f"; what is proved of them changed since in {', '.join(proofs)}" if proofs else ""))
    if not shutil.which("rt"):
        print("that these sources make it, and that their proofs hold, can be checked only with the Rattle kit, whose rt isn't on the PATH")
        return UNCHECKED
    return made_again(name, kept)


def made_again(name: str, kept: manifest.Manifest) -> int:
    """Proves and builds the program from nothing, and compares."""
    build.tell(name, "proving and building it from nothing, in some 40 minutes to two hours")
    with build.copied((name,)) as room:
        build.proved((name,), room, anew=True)
        made = digest_of(f"{room}/crates/{name}/out/{name}")
    if made != kept.programs[name].digest:
        print(f"FAILED: these sources are proved, and make other bytes, sha256:{made}: {os.path.relpath(TOP)} may have another kit than {kept.kit}")
        return 1
    print(f"these sources are proved, and make these bytes, with {kept.kit}")
    return 0
