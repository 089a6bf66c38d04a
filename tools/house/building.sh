# Builds a crate as LLVM compiles it, over the statements of the crates below it: `rt lib` and `rt ci` would prove those anew. Sourced by scripts
# that have `top`, the repository's folder.
kit="$(dirname "$(rt doc)")"

# Proves the crate $1, a program (src/main.rt) or a static library, and leaves what LLVM makes of it in $2. The libraries below it lie in the folders
# that follow, as NAME.rlib; those of the kit in its own. Its clang compiles it, or that of the folder `toolchain`, if there is one.
build_over() {
    local crate="$1" out="$2" it folder at root=main words
    shift 2
    words=()
    [ -f "$top/crates/$crate/src/main.rt" ] || { root=lib && words+=(--crate-type staticlib); }
    words+=(--crate-name "$crate" "src/$root.rt" --links "$crate=")
    for it in std $(sed -n "s/^$crate\( staticlib\)\{0,1\}: *//p" "$top/crates.txt"); do
        at="$kit/rlibs"
        for folder in "$@"; do [ ! -d "$folder/$it.rlib" ] || at="$folder"; done
        words+=(--extern "$it=$at/$it.rlib")
    done
    for folder in "$@"; do words+=(-L "dependency=$folder"); done
    words+=(-L "dependency=$kit/rlibs" --antt-project "$kit/rattle/logic/antt-project.json" --logic-built "$kit/logic_built" --jobs 2)
    (cd "$top/crates/$crate" && "$kit/bin/rattle" build "${words[@]}" --backend llvm --toolchain "${toolchain:-$kit/toolchain}" -o "$out")
}

# The crates of this repository that the crate $1 stands on, each once.
crates_below() {
    local it next="$1" found=" "
    while [ -n "$next" ]; do
        next="$(for it in $next; do sed -n "s/^$it\( staticlib\)\{0,1\}: *//p" "$top/crates.txt"; done | tr ' ' '\n' | sort -u)"
        next="$(for it in $next; do [[ ! -d "$top/crates/$it" || "$found" == *" $it "* ]] || echo "$it"; done)"
        for it in $next; do found+="$it "; done
    done
    echo $found
}

# Leaves the static library in crates/csi_embedded/out, over what rt ci left there. Who asks for it second waits for the first, and finds it.
built_library() {
    local library="$top/crates/csi_embedded/out/libcsi_embedded.a" below
    below="$(for it in $(crates_below csi_embedded); do echo "$top/crates/$it/out/rlib"; done)"
    [ -d "$top/crates/csi_service/out/rlib" ] || { echo "there is no crates/csi_service/out/rlib: rt ci leaves it"; return 1; }
    (
        flock 8
        [ -f "$library" ] && [ -z "$(find $below -maxdepth 0 -newer "$library" -print -quit)" ] ||
            build_over csi_embedded out/libcsi_embedded.a "$top"/crates/*/out/rlib
    ) 8> "$top/crates/csi_embedded/out/library.lock"
}
