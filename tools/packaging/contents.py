"""Which files each package has to have, beside what Debian asks for in each."""
import glob
import gzip
import io
import os
import re
import subprocess
import tarfile

TOP = os.path.dirname(os.path.dirname(os.path.dirname(os.path.realpath(__file__))))
with open(f"{TOP}/docs/FORMATS.md", encoding="utf-8") as file:
    FORMATS = ("FORMATS", *re.findall(r"^\[(\w+)\]\(\1\.md\) \|", file.read(), re.M))  # with the pages that it lists
EMBED = ("orchestrator.c", "orchestrator.go", "orchestrator.rs", "plugin.c", "plugin.go", "plugin.rs", "store.go", "store.h", "store.rs", "tufayon.rs")
PARTS = ("orchestrator", "controller", "node")

CONTENTS = {
    "tufayon": {
        "usr/bin/csi-replay", "usr/bin/tufayon-audit", "usr/share/man/man1/csi-replay.1.gz", "usr/share/bash-completion/completions/csi-replay",
        "usr/share/tufayon/audit", *(f"usr/share/tufayon/auditing/{it}.py" for it in ("__init__", "clauses", "lines", "worked")),
        *(f"usr/share/doc/tufayon/{it}.md" for it in FORMATS),
    },
    "libtufayon-dev": {
        "usr/include/tufayon.h", "usr/lib/x86_64-linux-gnu/libtufayon.a", "usr/lib/x86_64-linux-gnu/pkgconfig/tufayon.pc",
        *(f"usr/share/doc/libtufayon-dev/examples/{it}" for it in EMBED),
    },
    "tufayon-service": {
        *(f"usr/bin/tufayon-{it}" for it in (*PARTS, "certificates", "demo")), "usr/bin/tufayonctl", "usr/bin/csi-driver",
        *(f"lib/systemd/system/tufayon-{it}@.service" for it in PARTS), "usr/lib/sysusers.d/tufayon-service.conf", "usr/lib/tmpfiles.d/tufayon-service.conf",
        *(f"etc/tufayon/example/{it}.json" for it in (*PARTS, "set")),
        "usr/share/bash-completion/completions/tufayonctl", "usr/share/zsh/vendor-completions/_tufayonctl", "usr/share/fish/vendor_completions.d/tufayonctl.fish",
        *(f"usr/share/tufayon/prometheus/{os.path.basename(it)}" for it in glob.glob(f"{TOP}/deploy/prometheus/*") if not it.endswith("_test.yml")),
        *(f"usr/share/doc/tufayon-service/{it}.md" for it in ("YEAR", "OPERATING", "SERVICE", "DRIVER", "UPSTREAM", "CHANGELOG")),
    },
}

# What of each package others' code is linked into.
LINKED = {"tufayon": {"csi-replay"}, "libtufayon-dev": {"libtufayon.a"}, "tufayon-service": {*(f"tufayon-{it}" for it in PARTS), "tufayonctl", "csi-driver"}}


def files_of(package):
    """The files of a package, without what each has to have: what says who may copy it, and what is new."""
    said = subprocess.run(["dpkg-deb", "--contents", package], stdout=subprocess.PIPE, text=True, check=True).stdout
    found = set()
    for line in said.splitlines():
        path = line.split(None, 5)[5].split(" -> ")[0].removeprefix("./")
        folder, _, name = path.rpartition("/")
        if path and not path.endswith("/") and not (folder.startswith("usr/share/doc/") and name.split(".")[0] in ("copyright", "changelog", "THIRD-PARTIES")):
            found.add(path)
    return {it.removesuffix(".gz") if it.startswith("usr/share/doc/") else it for it in found}


def parties_of(package, name):
    """What a package of this name says of its licence, and of what of others is linked into its programs."""
    packed = subprocess.run(["dpkg-deb", "--fsys-tarfile", package], stdout=subprocess.PIPE, check=True).stdout
    with tarfile.open(fileobj=io.BytesIO(packed)) as files:
        licence, parties = (files.extractfile(f"./usr/share/doc/{name}/{it}").read() for it in ("copyright", "THIRD-PARTIES.gz"))
    return licence.decode(), gzip.decompress(parties).decode()
