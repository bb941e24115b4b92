# For the scripts beside it, which source it: `build NAME` proves and builds a program of the repository, where a source is newer than the
# program, tells on standard error what it has proved, and ends the script with status 3 where that fails; `run NAME` runs the program on
# standard input; `build_archive` makes the static library in the same way, and `archive_after_ci` over the libraries that `rt ci` has left.
# Programs are for x86-64: on another processor they run under qemu-user's emulator, with the C library that the toolchain brings.
home=$(dirname "$(dirname "$(readlink -f "${BASH_SOURCE[0]}")")")
archive=$home/crates/boundary/out/libboundary.a

tell() { echo "bin/$(basename "$(readlink -f "$0")"): $*" >&2; }

# The toolchain's folder.
kit() { dirname "$(rt doc)"; }

# The crates that $1 is made of: those it depends on, the lowest last, and before them itself; in crates.txt a crate stands behind those.
crates_of() {
    local below='BEGIN { need[name] } $1 in need { print $1; for (i = 2; i <= NF; i++) need[$i] }'
    tac "$home/crates.txt" | awk -F '[: ]+' -v name="$1" "$below"
}

# What rt says of the program $1, in short: each crate when it has been proved. What rt says of one that is not proved goes on in full.
# Where rt has said nothing for three seconds, something is being proved.
progress() {
    local line status all crate='' said='' about='' done=0 since now
    all=$(crates_of "$1" | wc -l)
    since=$(date +%s)
    while :; do
        status=0
        IFS= read -r -t 3 line || status=$?
        if [ "$status" -gt 128 ]; then
            [ -n "$said" ] || tell "proving and building the program $1 (from a fresh clone, some minutes)"
            said=yes
            continue
        fi
        [ "$status" -eq 0 ] || break
        about+=$line$'\n'
        case $line in
            'crate '*': modules '*) crate=${line#crate } crate=${crate%%:*} ;;
            'logic=proved '*)
                now=$(date +%s) done=$((done + 1)) about=''
                tell "$crate proved ($((now - since)) s), crate $done of $all"
                since=$now
                ;;
            'rt: running '*) about='' ;;
        esac
    done
    printf '%s' "$about" >&2
}

# Whether $1 is there, and no source is newer.
is_new() { [ -e "$1" ] && [ -z "$(find "$home/crates.txt" "$home"/crates/*/{src,specs,proofs} -newer "$1" -print -quit 2>/dev/null)" ]; }

needs_rt() { command -v rt >/dev/null || { tell 'needs the Rattle toolchain: there is no rt on the path'; exit 3; }; }

# `rt run` also runs the program, on the input that lies beside its sources.
build() {
    local folder=$home/crates/$1 input=/dev/null
    is_new "$folder/out/$1" && return
    needs_rt
    [ ! -e "$folder/stdin" ] || input=$folder/stdin
    (cd "$folder" && rt run <"$input" 2>&1 >/dev/null) | progress "$1"
    [ "${PIPESTATUS[0]}" -eq 0 ] || { tell "the program $1 was not built"; exit 3; }
}

build_archive() {
    is_new "$archive" && return
    needs_rt
    (cd "$home/crates/boundary" && rt lib 2>&1) | progress boundary
    [ "${PIPESTATUS[0]}" -eq 0 ] || { tell 'the static library was not made'; exit 3; }
}

# Right after `rt ci`, in a clone where nothing else was proved, each library stands as rt ci proved it, and the compiler makes the archive
# over these; `rt lib` would prove them all once more. Where one stands as another command left it (with a stamp), `rt lib` makes it.
archive_after_ci() {
    local kit crate words=() below
    kit=$(kit)
    below=$(crates_of boundary | sed 1d)
    for crate in $below; do
        crate=$home/crates/$crate/out/rlib
        [ -d "$crate" ] && [ ! -e "$crate/stamp" ] || { build_archive; return; }
        words+=(-L "dependency=$crate")
    done
    for crate in $(sed -n 's/^boundary .*: *//p' "$home/crates.txt"); do
        words+=(--extern "$crate=$home/crates/$crate/out/rlib/$crate.rlib")
    done
    (cd "$home/crates/boundary" && mkdir -p out && "$kit/bin/rattle" build --crate-name boundary --crate-type staticlib src/lib.rt \
        --extern "std=$kit/rlibs/std.rlib" -L "dependency=$kit/rlibs" "${words[@]}" --antt-project "$kit/rattle/logic/antt-project.json" \
        --logic-built "$kit/logic_built" --toolchain "$kit/toolchain" -o out/libboundary.a)
}

run() {
    if [ "$(uname -m)" = x86_64 ]; then
        "$home/crates/$1/out/$1"
    else
        local lib
        lib=$(kit)/toolchain/lib
        qemu-x86_64 "$lib/ld-linux-x86-64.so.2" --library-path "$lib" "$home/crates/$1/out/$1"
    fi
}
