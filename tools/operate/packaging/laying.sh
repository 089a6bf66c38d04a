# Lays out in `tree` what packages and tarball have, as it lies where they are installed. Sourced by tools/operate/package, which has `top` and `tree`.

# Puts a file of the first name into the tree by the second.
lay() { install -D -m "${3:-644}" "$1" "$tree/$2"; }

# What tools/operate/install left goes where Debian has libraries of one architecture.
lay_library() {
    local it machine=usr/lib/x86_64-linux-gnu
    mkdir -p "$tree/$machine"
    mv "$tree/usr/lib/libtufayon.a" "$tree/usr/lib/pkgconfig" "$tree/$machine"
    sed -i -e 's,^prefix=.*,prefix=/usr,' -e "s,\${prefix}/lib,/$machine," -e '/^Cflags:/d' "$tree/$machine/pkgconfig/tufayon.pc"
    sed -i '1s,.*,#!/usr/bin/python3,' "$tree/usr/share/tufayon/audit"
    for it in "$top"/examples/embed/*; do lay "$it" "usr/share/doc/libtufayon-dev/examples/${it##*/}"; done
}

# The programs of service/, which lie in $1, and what belongs to them.
lay_service() {
    local it
    for it in tufayon-orchestrator tufayon-controller tufayon-node tufayonctl csi-driver; do lay "$1/$it" "usr/bin/$it" 755; done
    lay "$top/tools/operate/certificates" usr/bin/tufayon-certificates 755
    lay "$top/deploy/demo" usr/bin/tufayon-demo 755
    for it in "$top"/deploy/systemd/*.service; do lay "$it" "lib/systemd/system/${it##*/}"; done
    # A program that tells systemd nothing is taken as started once it runs.
    grep -q NOTIFY_SOCKET "$1/tufayon-node" || sed -i -e 's/^Type=notify$/Type=exec/' -e '/^# A commit that hangs/,/^WatchdogSec=/d' "$tree"/lib/systemd/system/*.service
    lay "$top/deploy/systemd/tufayon.sysusers" usr/lib/sysusers.d/tufayon-service.conf
    lay "$top/deploy/systemd/tufayon.tmpfiles" usr/lib/tmpfiles.d/tufayon-service.conf
    for it in "$top"/deploy/example/*; do lay "$it" "etc/tufayon/example/${it##*/}"; done
    mkdir -p "$tree/usr/share/tufayon/prometheus"
    for it in "$top"/deploy/prometheus/*; do
        case "$it" in *'/*' | *_test.yml) ;; *) lay "$it" "usr/share/tufayon/prometheus/${it##*/}" ;; esac
    done
    for it in YEAR OPERATING SERVICE DRIVER UPSTREAM CHANGELOG; do lay "$top/docs/$it.md" "usr/share/doc/tufayon-service/$it.md"; done
    "$1/tufayonctl" completion bash > "$work/completion" && lay "$work/completion" usr/share/bash-completion/completions/tufayonctl
    "$1/tufayonctl" completion zsh > "$work/completion" && lay "$work/completion" usr/share/zsh/vendor-completions/_tufayonctl
    "$1/tufayonctl" completion fish > "$work/completion" && lay "$work/completion" usr/share/fish/vendor_completions.d/tufayonctl.fish
}
