"""What an operator does with a set on five machines, by the commands of docs/YEAR.md: three have a server of etcd and an orchestrator, two of these a
controller, and each is a node."""
import re
import shutil
import time

from .machines import NETWORK, Failed

SET = "s1"
FILES, STORES = f"/etc/tufayon/{SET}", f"/var/lib/tufayon/{SET}"
THREE, CONTROLLERS = (1, 2, 3), (1, 2)
PROMISE = "off for good, and its store never comes back"
CLIENT = (f"cd /root; export TUFAYON_ADDRESS={','.join(f'{NETWORK}.{it}:7000' for it in THREE)} TUFAYON_SET={SET}; "
          "export TUFAYON_CERTIFICATE=ca/client-admin/cert.pem TUFAYON_KEY=ca/client-admin/key.pem TUFAYON_AUTHORITIES=ca/client-admin/ca.pem; ")


def need(told, is_so, *more):
    """Fails where something isn't so."""
    if not is_so:
        raise Failed("\n".join([told, *map(str, more)]))


def soon(told, ask, within=60):
    """Waits until something is so."""
    until = time.monotonic() + within
    while not ask():
        need(f"{told}: not within {within} s", time.monotonic() < until)
        time.sleep(0.3)


class Set:
    """The machines, by their numbers, and one that may come later. Who asks is the client `admin`, on the first that is up."""

    def __init__(self, machines, spare):
        self.machines, self.spare = machines, spare

    def __getitem__(self, number):
        return self.machines[number]

    def of(self, part):
        """The numbers of the machines that are up and have a part."""
        where = {"node": tuple(self.machines), "controller": CONTROLLERS, "orchestrator": THREE}[part]
        return [it for it in where if self.machines[it].process]

    def up(self):
        return [it for it in self.machines.values() if it.process]

    def ask(self, words, check=True):
        return self.up()[0](f"{CLIENT}tufayonctl {words}", check=check)

    def told(self, words, *texts):
        """Asks, and needs these words in what is said."""
        _, said = self.ask(words)
        for text in texts:
            need(f"tufayonctl {words}: there is no {text!r}", re.search(text, said), said)


# ---- installing


def install(machine, packages, back=""):
    machine(f"cd {packages} && apt-get install -y {back}./tufayon*.deb")


def install_etcd(system):
    for number in THREE:
        system[number]("apt-get install -y etcd-server etcd-client")


def unpack(machine, packages):
    """The same without packages: the tarball's programs run, and systemd has its units. It is an empty machine behind it."""
    machine(f"set -e; cd {packages}\ntar -C / -xf tufayon-*.tar.xz\nsystemd-sysusers tufayon-service.conf\nsystemd-tmpfiles --create tufayon-service.conf\nsystemctl daemon-reload")
    machine(f"test -L /lib && test -d /var/lib/tufayon && getent passwd tufayon-controller && systemctl cat tufayon-node@{SET}")
    demonstrate(machine)
    machine.kill()
    machine.empty()
    machine.start()


def demonstrate(machine):
    """A set on one machine, as somebody who isn't root."""
    machine("runuser -u nobody -- sh -c 'set -e; cd /tmp\ntufayon-demo start\ntufayon-demo show\ntufayon-demo stop'")
    need("the demonstration left nothing", machine("ls -d /tmp/tufayon-demo*", check=False)[0] != 0)


def starts_nothing(machine):
    """After an installation nothing runs, and nothing will."""
    _, running = machine("systemctl list-units --all --no-legend 'tufayon-*'")
    need(f"{machine.name}: it runs after its installation", not running.strip(), running)
    _, enabled = machine("ls /etc/systemd/system/*.wants")
    need(f"{machine.name}: it is enabled after its installation", "tufayon" not in enabled, enabled)


def programs(machine):
    """What needs no set: the program, its audit, the demonstration, the library's file for pkg-config, and what tufayonctl is linked with."""
    machine("csi-replay --version && csi-driver --version && test -f /usr/share/man/man1/csi-replay.1.gz")
    machine("printf '%s' '{\"greatest\":1000,\"nodes\":[]}' > /tmp/config && csi-replay controller /tmp/c.db /tmp/config < /dev/null && "
            "csi-replay record /tmp/c.db | tufayon-audit | grep -qx 'nothing found'")
    machine("cd /packages/old && apt-get install -y ./libtufayon-dev*.deb && grep -q '^Version: ' /usr/lib/x86_64-linux-gnu/pkgconfig/tufayon.pc")
    _, said = machine("ldd /usr/bin/tufayonctl")
    need("tufayonctl wants what only stores need", "libc.so" in said and "sqlite" not in said, said)
    demonstrate(machine)


# ---- names and certificates


def certify(system):
    """On the first machine all certificates, which are then brought to where they belong."""
    system[1](f"cd /root && tufayon-certificates ca {SET} orchestrator controller client/admin node/m1 node/m2 node/m3 node/m4 node/m5")
    system[1](f"cd /root && tufayon-certificates ca {SET} " + " ".join(f"etcd/{NETWORK}.{it}" for it in THREE) + " etcd/orchestrator etcd/controller")
    for number, machine in system.machines.items():
        machine(f"mkdir -p {FILES}")
        machine(f"cp /etc/tufayon/example/*.json {FILES}")
        bring(system, f"node-m{number}", number, f"{FILES}/node", "root")
        bring(system, "client-admin", number, "/root/ca/client-admin", "root")
        if number in THREE:
            bring(system, "orchestrator", number, f"{FILES}/orchestrator", "tufayon-orchestrator")
            bring(system, "etcd-orchestrator", number, f"{FILES}/etcd-orchestrator", "tufayon-orchestrator")
            bring(system, f"etcd-{NETWORK}.{number}", number, "/etc/etcd", "etcd")
        if number in CONTROLLERS:
            bring(system, "controller", number, f"{FILES}/controller", "tufayon-controller")
            bring(system, "etcd-controller", number, f"{FILES}/etcd-controller", "tufayon-controller")


def bring(system, name, number, folder, user):
    """Copies a certificate, with its key, from where all are made to a folder of a machine, whose user reads it."""
    if folder != f"/root/ca/{name}" or number != 1:
        _, packed = system[1](f"tar -C /root/ca/{name} -c . | base64 -w 0")
        system[number](f"mkdir -p -m 700 {folder} && echo {packed} | base64 -d | tar -C {folder} -x")
    system[number](f"chown -R {user}: {folder}")


def renew(system, number):
    """A node's certificate, while it runs: it is of use from the next connection on."""
    served = f"openssl s_client -connect {NETWORK}.{number}:7002 < /dev/null 2> /dev/null | openssl x509 -noout -serial -enddate"
    _, before = system[1](served)
    system[1](f"cd /root && tufayon-certificates ca {SET} node/m{number}")
    bring(system, f"node-m{number}", number, f"{FILES}/node", "root")
    _, after = system[1](served)
    _, made = system[1](f"openssl x509 -noout -serial -enddate -in /root/ca/node-m{number}/cert.pem")
    need("the new certificate is served", after == made != before, before, after, made)
    system.told("nodes", f"node:m{number} +READY")


# ---- the first start


def configure(system):
    for number, machine in system.machines.items():
        machine(f"sed -i 's,example,{SET},g' {FILES}/*.json")
        machine(f"sed -i 's/\"address\": \"[^\"]*\"/\"address\": \"{NETWORK}.{number}:7000\"/' {FILES}/orchestrator.json")
        machine(f"sed -i 's/\"node\": \"m1\"/\"node\": \"m{number}\"/' {FILES}/node.json")


def etcd_file(number):
    """What /etc/default/etcd of a machine has."""
    own, every = f"https://{NETWORK}.{number}", ",".join(f"m{it}=https://{NETWORK}.{it}:2380" for it in THREE)
    files = "\n".join(f"ETCD{of}_{what}_FILE=/etc/etcd/{file}.pem" for of in ("", "_PEER") for what, file in (("CERT", "cert"), ("KEY", "key"), ("TRUSTED_CA", "ca")))
    return (f"ETCD_DATA_DIR=/var/lib/etcd/{SET}\nETCD_INITIAL_CLUSTER={every}\nETCD_INITIAL_CLUSTER_TOKEN={SET}\n"
            "ETCD_AUTO_COMPACTION_MODE=periodic\nETCD_AUTO_COMPACTION_RETENTION=1h\n"
            f"ETCD_LISTEN_PEER_URLS={own}:2380\nETCD_INITIAL_ADVERTISE_PEER_URLS={own}:2380\n"
            f"ETCD_LISTEN_CLIENT_URLS={own}:2379\nETCD_ADVERTISE_CLIENT_URLS={own}:2379\n"
            f"ETCD_CLIENT_CERT_AUTH=true\nETCD_PEER_CLIENT_CERT_AUTH=true\n{files}\n")


def start_etcd(system):
    for number in THREE:
        system[number](f"cat > /etc/default/etcd << 'END'\n{etcd_file(number)}END\nsystemctl --no-block restart etcd")
    for number in THREE:
        soon(f"etcd at m{number}", lambda at=number: system[at]("systemctl is-active etcd", check=False)[1].strip() == "active")


def start(system):
    """First the nodes, then the controllers, last the orchestrators."""
    for part in ("node", "controller", "orchestrator"):
        for number in system.of(part):
            _, said = system[number](f"tufayon-{part} --check {FILES}/{part}.json")
            need(f"m{number}: --check", "nothing is wrong" in said and "is valid until" in said, said)
            system[number](f"systemctl enable --now tufayon-{part}@{SET}")
    reached(system)


def reached(system):
    """Each plugin that is up is reached."""
    def is_so():
        status, said = system.ask("nodes", check=False)
        return status == 0 and all(re.search(rf"^{name} +READY", said, re.M) for name in ("controller", *(f"node:{it.name}" for it in system.up())))
    soon("each plugin is reached", is_so)


def keep_out(system):
    """etcd takes its own members, an orchestrator and a controller, and none of the set's other certificates."""
    for folder, is_let_in in ((f"{FILES}/etcd-orchestrator", True), (f"{FILES}/etcd-controller", True), ("/etc/etcd", True),
                              (f"{FILES}/node", False), (f"{FILES}/orchestrator", False), ("/root/ca/client-admin", False)):
        status, said = system[1](f"ETCDCTL_API=3 etcdctl --endpoints=https://{NETWORK}.1:2379 --cacert=/etc/etcd/ca.pem --cert={folder}/cert.pem --key={folder}/key.pem "
                                 "--dial-timeout=5s --command-timeout=10s get --prefix --keys-only --limit=1 /tufayon", check=False)
        need(f"etcd and {folder}", (status == 0) == is_let_in, said)


# ---- each day


def use(system):
    system.told("create v --size 10G --wait", "v .* yes")
    system.told("use v m4 /srv/v --wait", "m4:/srv/v")
    system[4]("mountpoint -q /srv/v")
    status, said = system.ask("use v m5 /srv/v --wait", check=False)
    need("a second node is refused", status == 1 and "HeldElsewhere" in said, said)
    system.told("list", r"v .* m4:/srv/v")
    system.told("get v", "m4:/srv/v")
    status, said = system[1](f"{CLIENT}timeout 3 tufayonctl watch --current", check=False)
    need("watch begins with what there is, and goes on", status == 124 and "m4:/srv/v" in said, said)


def move(system, source, target):
    system.told(f"stop v m{source} /srv/v --wait")
    if system[source].process:
        need("it is unmounted", system[source]("mountpoint -q /srv/v", check=False)[0] != 0)
    system.told(f"use v m{target} /srv/v --wait", f"m{target}:/srv/v")
    system[target]("mountpoint -q /srv/v && echo kept > /srv/v/file")


def watch(system):
    """What happened can be read where it did, and how each process does."""
    _, said = system[4](f"journalctl -u tufayon-node@{SET} --no-pager")
    need("the log of a node", "serves at" in said, said)
    _, said = system[leader(system)]("journalctl TUFAYON_VOLUME=v --no-pager")
    need("what the log has of a volume", len(said.splitlines()) > 3, said)
    system.told("history v", "m4")
    for port, metric in ((9480, "tufayon_session"), (9481, "tufayon_driver_rows"), (9482, "tufayon_driver_rows")):
        _, said = system[1](f"python3 -c 'import urllib.request as it; print(it.urlopen(\"http://127.0.0.1:{port}/metrics\").read().decode())'")
        need(f"metrics at {port}", metric in said, said)


def leader(system):
    """The machine of the orchestrator that leads, as systemd is told."""
    for number in system.of("orchestrator"):
        said = system[number](f"systemctl show -P StatusText tufayon-orchestrator@{SET} tufayon-controller@{SET}")[1]
        if "leads" in said.split("\n")[0]:  # the orchestrator's
            return number
    raise Failed("nobody leads")


# ---- machines that die


def lose_power(system, number):
    """The machine of a leader dies, and comes back. Others lead meanwhile; and a volume that was in use there is mounted again."""
    system.told("create u --size 1G --wait", "u .* yes")
    system.told(f"use u m{number} /srv/u --wait", f"m{number}:/srv/u")
    system[number]("mountpoint -q /srv/u && echo kept > /srv/u/file")
    system[number].kill()
    soon("another leads", lambda: system.ask("list", check=False)[0] == 0)
    system.told("create w --size 1G --wait", "w .* yes")
    system.told("delete w --wait")
    system[number].start()
    reached(system)
    soon("the volume in use is mounted again", lambda: system[number]("mountpoint -q /srv/u && cat /srv/u/file", check=False)[1] == "kept\n")
    system.told(f"stop u m{number} /srv/u --wait")
    system.told("delete u --wait")


# ---- stores that are put back


def put_back(system, number):
    """A node's store is looked at while it is in use. An older copy in its place isn't used once a session begins, until the node has its own store again."""
    machine, store, unit = system[number], f"{STORES}/node", f"tufayon-node@{SET}"
    _, said = machine("csi-replay record /var/lib/tufayon/s1/node/node.db")
    need("the record of a node that runs", f'"node":"m{number}"' in said.replace(" ", ""), said)
    machine(f"systemctl stop {unit} && cp -a {store} /root/copy && systemctl start {unit}")
    reached(system)
    system.told("create x --size 1G --wait", "x .* yes")
    system.told(f"use x m{number} /srv/x --wait", f"m{number}:/srv/x")
    machine(f"systemctl stop {unit} && mv {store} /root/present && mv /root/copy {store} && systemctl start {unit}")
    system.told("restart")
    soon("the copy is found", lambda: re.search(f"^node:m{number} .*its store is an older copy", system.ask("nodes", check=False)[1], re.M))
    machine(f"systemctl stop {unit} && rm -r {store} && mv /root/present {store} && systemctl start {unit}")
    reached(system)
    system.told(f"stop x m{number} /srv/x --wait")
    system.told("delete x --wait")


# ---- another list of nodes


def listed(system, without):
    """Leaves a node out of the list, and takes it in again."""
    for command in (f"sed -i.before '/\"id\": \"m{without}\"/d' {FILES}/set.json", f"mv {FILES}/set.json.before {FILES}/set.json"):
        for number in THREE:
            system[number](command)
        read_anew(system, lambda said, want="mv" in command: (f"node:m{without} " in said) == want)
    reached(system)


def add(system, packages):
    """A machine more is a node, another orchestrator leads, and the machine goes again."""
    listed_on, line = (*THREE, 6), f'{{"id": "m6", "slots": 128, "address": "{NETWORK}.6:7002"}}'
    machine = system.machines[6] = system.spare
    machine.start()
    install(machine, packages)
    machine(f"mkdir -p {FILES} && cp /etc/tufayon/example/*.json {FILES} && sed -i 's,example,{SET},g' {FILES}/*.json && sed -i 's/\"node\": \"m1\"/\"node\": \"m6\"/' {FILES}/node.json")
    system[1](f"cd /root && tufayon-certificates ca {SET} node/m6")
    bring(system, "node-m6", 6, f"{FILES}/node", "root")
    for number in listed_on:
        system[number](f"sed -i.before 's|^ *{{\"id\": \"m5\".*|&,\\n    {line}|' {FILES}/set.json")
    machine(f"tufayon-node --check {FILES}/node.json && systemctl enable --now tufayon-node@{SET}")
    read_anew(system, lambda said: "node:m6 " in said)
    reached(system)
    system[leader(system)](f"systemctl restart tufayon-orchestrator@{SET}")  # another leads, which has read the files anew too
    reached(system)
    system.told("create u --size 1G --wait", "u .* yes")
    soon("a use at the new node", lambda: system.ask("use u m6 /srv/u --wait", check=False)[0] == 0)
    machine("mountpoint -q /srv/u")
    system.told("stop u m6 /srv/u --wait")
    system.told("delete u --wait")
    machine.kill()
    del system.machines[6]
    for number in THREE:
        system[number](f"mv {FILES}/set.json.before {FILES}/set.json")
    read_anew(system, lambda said: "node:m6 " not in said)
    reached(system)


def read_anew(system, is_so):
    """The orchestrators read their files anew, and once the list of nodes is so, the controllers."""
    for number in system.of("orchestrator"):
        system[number](f"systemctl reload tufayon-orchestrator@{SET}")
    soon("another list", lambda: is_so(system.ask("nodes")[1]))
    for number in system.of("controller"):
        system[number](f"systemctl reload tufayon-controller@{SET}")


# ---- upgrades


def upgrade(system, packages, version, parts, used, back=""):
    """Installs another version everywhere, which starts nothing anew, and starts part after part anew, machine after machine. A volume is in use at a node."""
    for machine in system.up():
        _, before = machine("systemctl show -P MainPID 'tufayon-*@*'")
        install(machine, packages, back)
        _, after = machine("systemctl show -P MainPID 'tufayon-*@*'")
        need(f"{machine.name}: an installation started something anew", before == after, before, after)
        _, said = machine("dpkg-query -W -f '${Version}' tufayon-service")
        need(f"{machine.name}: its version", said == version, said)
    for part in parts:
        for number in system.of(part):
            system[number](f"systemctl restart tufayon-{part}@{SET}")
            reached(system)
            need("the volume in use is there", system[used]("cat /srv/v/file")[1] == "kept\n")


# ---- a node that is lost


def lose(system, number, successor):
    """A node's machine is off for good while a volume is used there. It gives the session with which another may join under its id."""
    system[number].kill()
    session = lost(system, number)
    move(system, number, successor)
    return session


def lost(system, number):
    """Declares a node lost, and gives the session with which another may join."""
    _, said = system.ask(f"lose m{number} --promise '{PROMISE}'")
    session = re.search(r"session (\d+)", said)
    need("lose tells a session", session, said)
    return session.group(1)


def join(system, number, session):
    """A new machine under this id: it has the files, with the session, and no store."""
    machine = system[number]
    disk = f"{machine.folder}/disk"
    shutil.rmtree(f"{disk}{STORES}")
    with open(f"{disk}{FILES}/node.json", "r+", encoding="utf-8") as file:
        text = file.read().replace('"node": ', f'"session": {session}, "node": ')
        file.seek(0)
        file.write(text)
    machine.start()
    for it in system.of("orchestrator"):
        system[it](f"systemctl reload tufayon-orchestrator@{SET}")
    reached(system)


# ---- one of the three that is gone for good


MEMBERS = f"""export ETCDCTL_API=3 ETCDCTL_ENDPOINTS=https://{NETWORK}.1:2379,https://{NETWORK}.2:2379
export ETCDCTL_CACERT=/etc/etcd/ca.pem ETCDCTL_CERT=/etc/etcd/cert.pem ETCDCTL_KEY=/etc/etcd/key.pem
"""


def replace(system, number):
    """A machine with an orchestrator, a member of etcd and a node is gone with its disk. Another one in its place gets its files, and joins."""
    machine = system[number]
    _, files = machine("cd /root; (umask 077 && tar -C / -czf files.tgz etc/tufayon/s1 etc/etcd etc/default/etcd) && base64 -w 0 files.tgz")
    machine.kill()
    soon("another leads", lambda: system.ask("list", check=False)[0] == 0)
    session = lost(system, number)
    system[1](f"""{MEMBERS}etcdctl member remove "$(etcdctl member list | sed -n 's/, .*, m{number}, .*//p')"
etcdctl member add m{number} --peer-urls=https://{NETWORK}.{number}:2380""")
    machine.empty()
    machine.start()
    install(machine, "/packages/new")
    machine(f"umask 077 && echo {files} | base64 -d > /root/files.tgz")
    machine("cd /root\ntar -C / -xzf files.tgz\necho ETCD_INITIAL_CLUSTER_STATE=existing >> /etc/default/etcd\nsystemctl restart etcd")
    machine(f"sed -i 's/\"node\": /\"session\": {session}, \"node\": /' {FILES}/node.json")
    for part in ("node", "orchestrator"):
        machine(f"systemctl enable --now tufayon-{part}@{SET}")
    for it in system.of("orchestrator"):
        system[it](f"systemctl reload tufayon-orchestrator@{SET}")
    reached(system)
    _, said = system[1](f"{MEMBERS}etcdctl endpoint health --cluster")
    need("three members", said.count("is healthy") == 3, said)


# ---- an orchestrator that lost its store


def carry(source, path, target, to):
    """Copies a file from one machine over a file of another, which keeps its owner and mode where it is there."""
    _, packed = source(f"gzip -c {path} | base64 -w 0")
    target(f"echo {packed} | base64 -d | gunzip > {to}")


RECOVER = f"""tufayon-orchestrator --config /etc/tufayon/s1/orchestrator.json > config
export ETCD={','.join(f'https://{NETWORK}.{it}:2379' for it in THREE)} OF=/etc/tufayon/s1/etcd-controller
csi-driver recover --etcd $ETCD --etcd-ca $OF/ca.pem --etcd-cert $OF/cert.pem --etcd-key $OF/key.pem \\
    --prefix /tufayon/s1/controller --new-prefix /tufayon/s1/recovered config 0 stores/*.db"""


def recover(system, used, dead):
    """What the orchestrator has in etcd is gone, and so is the machine of a node. Its store is made anew, and goes on; a volume is in use at another node."""
    system.told("create u --size 1G --wait", "u .* yes")
    system.told(f"use u m{dead} /srv/u --wait", f"m{dead}:/srv/u")
    system[1](f"{MEMBERS}etcdctl del --prefix /tufayon/{SET}/orchestrator/")
    for number in THREE:
        system[number](f"systemctl restart tufayon-orchestrator@{SET}", check=False)
    for number in THREE:
        soon(f"m{number}: older store", lambda at=number: "older store" in system[at](f"journalctl -u tufayon-orchestrator@{SET} --no-pager -n 20", check=False)[1]
             and system[at](f"systemctl is-failed tufayon-orchestrator@{SET}", check=False)[1].strip() == "failed", within=120)
    system[dead].kill()
    for machine in system.up():
        machine("systemctl stop tufayon-orchestrator@s1 tufayon-controller@s1 tufayon-node@s1")
        need(f"{machine.name}: the store is one file", "node.db-wal" not in machine(f"ls {STORES}/node")[1])
        system[1]("mkdir -p -m 700 /root/stores")
        carry(machine, f"{STORES}/node/node.db", system[1], f"/root/stores/{machine.name}.db")
    _, said = system[1](f"set -e; cd /root\n{RECOVER}")
    need("what was recovered", re.search(rf'{{"lost":\["m{dead}"\],"session":\d+,"volumes":2,"wanted":\[\]}}', said), said)
    for machine in system.up():
        carry(system[1], f"/root/stores/{machine.name}.db", machine, f"{STORES}/node/node.db")
    for number in system.of("orchestrator"):
        system[number]("""sed -i 's,"/tufayon/s1/orchestrator","/tufayon/s1/recovered",' /etc/tufayon/s1/orchestrator.json""")
    for part in ("node", "controller", "orchestrator"):
        for number in system.of(part):
            system[number](f"systemctl start tufayon-{part}@{SET}")
    reached(system)
    system.told("list", rf"v .* m{used}:/srv/v", rf"u .* m{dead}")
    need("the volume in use is there", system[used]("mountpoint -q /srv/v && cat /srv/v/file")[1] == "kept\n")
    session = lost(system, dead)
    system.told(f"stop u m{dead} /srv/u --wait")
    system.told("use u m2 /srv/u --wait", "m2:/srv/u")
    system.told("stop u m2 /srv/u --wait")
    system.told("delete u --wait")
    join(system, dead, session)


# ---- taking it away


def end(system, used):
    system.told(f"stop v m{used} /srv/v --wait")
    system.told("delete v --wait")
    for part in ("orchestrator", "controller", "node"):
        for number in system.of(part):
            system[number](f"systemctl disable --now tufayon-{part}@{SET}")


def files_of(machine):
    """Each file and folder of the machine's own disk, but for what Debian's own programs keep, and what this operator made elsewhere."""
    others = ("/var/lib/dpkg", "/var/lib/apt", "/var/cache", "/var/log", "/var/lib/systemd", "/var/lib/etcd", "/etc/etcd", "/root", "/tmp", "/var/tmp", "/etc/.pwd.lock", "/etc/default/etcd")
    pruned = " -o ".join(f"-path {it}" for it in others)
    return set(machine(f"find / -xdev \\( {pruned} \\) -prune -o ! -name '*-' -print")[1].splitlines())


def purge(machine, before, asks):
    """Purges, and judges what is left."""
    if asks:
        machine("echo tufayon-service tufayon-service/remove_stores boolean true | debconf-set-selections")
    machine("apt-get purge -y tufayon tufayon-service")
    machine("dpkg --purge libtufayon-dev", check=False)
    left = sorted(files_of(machine) - before - {"/srv/u", "/srv/v", "/srv/x"})
    stores = [it for it in left if it.startswith("/var/lib/tufayon")]
    need(f"{machine.name}: something is left", left == stores, *left)
    need(f"{machine.name}: the stores", bool(stores) != asks, *stores)
    _, users = machine("getent passwd | grep -c tufayon", check=False)
    need(f"{machine.name}: the users", int(users) == (0 if asks else 2), users)
