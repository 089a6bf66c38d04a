# Lays service/ out as Go wants it. Sourced by scripts that have `top`, the repository's folder.

# Copies service/ to $1/src/tufayon/service, with what protoc makes of its protos, and has Go build it there, as service_environment says. What tests of
# service/ hold against it comes too: deploy/prometheus and deploy/systemd.
service_tree() {
    local tree="$1/src/tufayon/service" as_go=plugins=grpc,paths=source_relative
    mkdir -p "$tree/wire" "$tree/api/wire" "$1/src/tufayon/deploy"
    cp -R "$top/service/." "$tree"
    cp -R "$top/deploy/prometheus" "$top/deploy/systemd" "$1/src/tufayon/deploy"
    (cd "$tree" && protoc "--go_out=$as_go,Mgoogle/protobuf/wrappers.proto=github.com/golang/protobuf/ptypes/wrappers:wire" csi.proto)
    (cd "$tree/api" && protoc "--go_out=$as_go:wire" orchestrator.proto plugin.proto)
    service_environment "$@"
}

# Has Go find packages below $1 and Debian's, and link the library $2. Go's cache is CSI_GOCACHE, or below $1: with the former, who builds the same later
# has at once what isn't of $1. Where `trimmed` is set, what is built has no folder's name. Else, without the race detector, Go's own packages are taken as
# Debian compiled them, and not anew: they are of no other flags of cgo, so that ours are in a file of the one package that needs them.
service_environment() {
    local needed="$2 $(dirname "$(rt doc)")/c/liblibc_c.a"
    export GO111MODULE=off GOPATH="$1:/usr/share/gocode" GOFLAGS=-p=2 GOCACHE="${CSI_GOCACHE:-$1/cache}"
    if [ -n "${trimmed-}" ]; then
        export GOFLAGS="-p=2 -trimpath" CGO_CFLAGS="-O2 -I$top/include" CGO_LDFLAGS="$needed"
    else
        printf '%s\n' 'package plugin' '' "// #cgo CFLAGS: -I$top/include" "// #cgo LDFLAGS: $needed" 'import "C"' > "$1/src/tufayon/service/plugin/linking.go"
    fi
}

# Writes to the folder $1 of each program that follows which files of sources it is made of, each with its package: for tools/operate/packaging/parties. It
# is run in the tree.
service_linked() {
    local folder="$1" it each='{{$it := .}}'
    for it in GoFiles CgoFiles CFiles HFiles SFiles; do each+='{{range .'$it'}}{{$it.ImportPath}}{{"\t"}}{{$it.Dir}}/{{.}}{{"\n"}}{{end}}'; done
    shift
    mkdir -p "$folder"
    for it in "$@"; do go list -deps -f "$each" "./cmd/$it" | sed '/^$/d' > "$folder/$it"; done
}

# `go build`, `vet` or `test`, with the race detector: for programs and tests alike, so that each package is compiled once. It compiles quickly: no call is
# inlined, nothing is written for debuggers, and Go's commands collect no garbage and have a processor each.
detecting() {
    local command="$1"
    shift
    GOGC=off GOMAXPROCS=1 go "$command" -race "-gcflags=all=-l -dwarf=false" "$@"
}

# Has a program that detecting built, where it finds a race, write that to a file in the folder $1, and end with status 66.
detected_in() {
    mkdir -p "$1"
    export GORACE="log_path=$1/race halt_on_error=1 atexit_sleep_ms=0"
}

# Runs a command that builds, one at a time of those that share a cache: who comes second finds what the first has built.
in_turn() {
    (
        [ -z "${CSI_GOCACHE-}" ] || { exec 9> "$CSI_GOCACHE.lock" && flock 9; }
        "$@"
    )
}

# Runs the benchmarks of the package $2 for the script $1, with the words that follow for `go test`, over the library that tools/embed leaves, or -l LIBRARY.
benchmark_service() {
    local name="$1" package="$2" library="$top/crates/csi_embedded/out/libcsi_embedded.a" folder
    shift 2
    if [ "${1-}" = -l ]; then
        library="$(realpath "${2:?}")"
        shift 2
    fi
    [ -f "$library" ] || { echo "$name: there is no $library: tools/embed leaves it" >&2; return 1; }
    folder="$(mktemp -d)"
    trap "rm -rf '$folder'" EXIT
    service_tree "$folder/go" "$library"
    cd "$folder/go/src/tufayon/service"
    go test -run none -bench . -benchtime 1s "$@" "$package"
}
