"""What a run needs: whether it is there, and the programs, as they are and with something broken on purpose."""
import os
import re
import shutil
import subprocess

HERE = os.path.dirname(os.path.abspath(__file__))
NEEDED = ("ip", "setpriv", "unshare", "etcd", "openssl", "mount", "protoc", "protoc-gen-go", "go", "cc", "rt")
SOURCES = "/usr/share/gocode/src"
PACKAGES = ("google.golang.org/grpc", "go.etcd.io/etcd/clientv3", "github.com/mattn/go-sqlite3", "github.com/spf13/cobra", "go.uber.org/zap", "golang.org/x/sys/unix")
TRY = "mount -t tmpfs tmpfs /run && ip netns add h1 && ip tuntap add dev wire0 mode tap && ip link set wire0 netns h1"
# What a run is started with: namespaces of its own, with which all of it goes, also where the one who started it is killed.
SPACES = ("setpriv", "--pdeathsig", "KILL", "unshare", "--net", "--mount", "--pid", "--fork", "--mount-proc", "--kill-child")


def missing():
    """What there isn't, in words; empty where there is everything."""
    if os.geteuid() != 0:
        return "nobody but root makes machines of namespaces"
    for name in NEEDED:
        if not shutil.which(name):
            return f"there is no {name}"
    for name in PACKAGES:
        if not os.path.isdir(f"{SOURCES}/{name}"):
            return f"there is no {name} for Go"
    came = subprocess.run([*SPACES, "sh", "-c", TRY], capture_output=True, text=True, check=False)
    return f"the kernel gives no namespaces with devices here: {came.stderr.strip()}" if came.returncode else ""


class Edit:
    """A file of edits: lines `file:` (below service/), and `old:` and `new:`, in which \\n and \\t stand for a line's end and a tab. The old text occurs once."""

    def __init__(self, name):
        self.changes, file = [], None
        with open(f"{HERE}/broken/{name}.edit", encoding="utf-8") as lines:
            for line in lines:
                found = re.fullmatch(r"(file|old|new): ?(.*)\n", line)
                if not found:
                    continue
                key, text = found.group(1), found.group(2).replace("\\n", "\n").replace("\\t", "\t")
                if key == "file":
                    file = text
                elif key == "old":
                    old = text
                else:
                    self.changes.append((file, old, text))

    def apply(self, tree):
        """Makes the changes, and gives what undoes them: each file with its content."""
        before = {}
        for file, old, new in self.changes:
            path = f"{tree}/{file}"
            with open(path, encoding="utf-8") as it:
                text = it.read()
            before.setdefault(path, text)
            if text.count(old) != 1:
                raise ValueError(f"{file} has {text.count(old)} times, and not once: {old}")
            with open(path, "w", encoding="utf-8") as it:
                it.write(text.replace(old, new))
        return before


def put_back(files):
    for path, text in files.items():
        with open(path, "w", encoding="utf-8") as it:
            it.write(text)


class Building:
    """The programs in a folder: `programs` as they are, and those with an edit below `broken`."""

    def __init__(self, top, library, folder):
        self.top, self.library, self.folder = top, library, folder
        self.tree = f"{folder}/go/src/tufayon/service"
        self.wire = f"{folder}/wire"
        self.laid_out = False

    def run(self, script, *words):
        script = f'set -eu; top="$1"; . "$top/tools/house/service.sh"; shift; {script}'
        came = subprocess.run(["bash", "-c", script, "bash", self.top, *words], stdout=subprocess.PIPE, stderr=subprocess.STDOUT, text=True, check=False)
        if came.returncode:
            raise OSError(f"what Go says: {came.stdout.strip()}")

    def lay_out(self):
        if not self.laid_out:
            self.run('service_tree "$1/go" "$2"', self.folder, self.library)
            self.laid_out = True

    def programs(self, edit=None):
        """Builds the service's programs, with an edit or without, once, and gives their folder."""
        built = f"{self.folder}/{edit or 'programs'}"
        if os.path.isdir(built):
            return built
        self.lay_out()
        os.mkdir(built)
        before = Edit(edit).apply(self.tree) if edit else {}
        try:
            names = "tufayon-orchestrator tufayon-controller tufayon-node tufayonctl"
            self.go(f'cd "$1/go/src/tufayon/service"; for it in {names}; do in_turn detecting build -ldflags="-s -w" -o "$2/$it" "./cmd/$it"; done', self.folder, built)
        finally:
            put_back(before)
        if not os.path.exists(self.wire):
            self.go('cd "$top/tools/machining/wire"; test -z "$(gofmt -l .)"; detecting vet .; go build -o "$3" .', self.folder, self.library, self.wire)
        return built

    def try_edits(self):
        """Tries that each edit can be applied, and builds nothing."""
        self.lay_out()
        for name in os.listdir(f"{HERE}/broken"):
            put_back(Edit(name.removesuffix(".edit")).apply(self.tree))

    def go(self, script, folder, *words):
        self.run(f'service_environment "$1/go" "{self.library}"; {script}', folder, *words)
