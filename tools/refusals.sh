# What tools/wrong and tools/tandem share: a tree in which crates can be altered, and the places at which the prover refuses one. Read by both, from the
# top of the repository.
root=$PWD
jobs=${RT_JOBS:-$(nproc)}

# Trees stand outside the repository, in which `rt ci` takes a source file in no folder of a crate for one that nothing proves. Whoever runs a tool again
# for some edits hands it the room.
if [ -z "${EDITS_ROOM:-}" ]; then
    EDITS_ROOM=$(mktemp -d)
    export EDITS_ROOM
    trap 'rm -rf "$EDITS_ROOM"' EXIT
fi

# The crates of the repository that a crate stands on, lowest first, by crates.txt.
below() { # CRATE
    awk -v top="$1" '
        { sub(/#.*/, ""); colon = index($0, ":") }
        colon { split($0, words, /[ :]/); stands[words[1]] = substr($0, colon + 1) }
        function visit(crate,    parts, count, i) {
            if (!(crate in stands) || crate in seen) return
            seen[crate] = 1
            count = split(stands[crate], parts, /[ ,]+/)
            for (i = 1; i <= count; i++) visit(parts[i])
            if (crate != top) print crate
        }
        END { visit(top) }' crates.txt
}

# Copies a folder by links where these can be made: rt makes such a file anew and does not write into it, but for those beside the checked modules.
linked() { # FROM TO
    local file
    [ -d "$1" ] || return 0
    if ! cp -al "$1" "$2" 2>/dev/null; then
        rm -rf "$2"
        cp -R "$1" "$2"
        return
    fi
    find "$2" -path '*/incremental/*' -type f ! -name '*.oantt' | while IFS= read -r file; do
        cp -p "$file" "$file.own"
        mv "$file.own" "$file"
    done
}

# Makes a tree of crates, some of which are to be altered. What is proved of them is the repository's: of a crate that stands on none of those its library,
# and of any other what a check goes on from.
tree_of() { # TREE CRATES ALTERED
    local tree=$1 crate part altered=" $(echo $3) "
    rm -rf "$tree"
    for crate in $2; do
        mkdir -p "$tree/crates/$crate/out"
        for part in src specs proofs; do
            [ ! -d "crates/$crate/$part" ] || cp -R "crates/$crate/$part" "$tree/crates/$crate"
        done
        if [[ $altered = *" $crate "* ]] || below "$crate" | grep -qxFf <(printf '%s\n' $3) || [ ! -d "crates/$crate/out/rlib" ]; then
            linked "crates/$crate/out/incremental" "$tree/crates/$crate/out/incremental"
        else
            linked "crates/$crate/out/rlib" "$tree/crates/$crate/out/rlib"
        fi
        grep -E "^$crate( [^:]*)?:" crates.txt >>"$tree/crates.txt"
    done
}

# Proves the crate of a tree. Sets found, the places at which a fact is refused, and ended, how the prover did. With FUNCTIONs only their proofs are looked at.
judge() { # CRATE TREE EDITED [FUNCTION..]
    local status=0 crate=$1 tree=$2 edited=$3 said function only=()
    shift 3
    for function in "$@"; do only+=(--only "${function//\//::}"); done
    (cd "$tree/crates/$crate" && rt check --jobs 1 "${only[@]}") >"$tree.log" 2>&1 || status=$?
    ended="exit $status" found=''
    if [ "$status" = 1 ] && grep -qE '^(logic=not-proved|only=)' "$tree.log"; then
        said=$(awk -v folder="$tree/crates/$crate" -v edited="$edited" -v task=said -f tools/places.awk "$tree.log")
        if grep -q '^unread ' <<<"$said"; then
            ended="it cannot be read: $(sed -n 's/^unread //p' <<<"$said" | head -n 1 | cut -c 1-200)"
        else
            found=$(sed -n 's/^place //p' <<<"$said")
            [ -n "$found" ] || ended='only for what names or rests on something else'
        fi
    elif [ "$status" = 1 ]; then
        ended="it does not reach the prover: $(grep -E 'error|^rt: ' "$tree.log" | head -n 1 | cut -c 1-200)"
    fi
}

# The places that edits of a crate name.
names() { # CRATE EDIT..
    local crate=$1
    shift
    awk -v folder="crates/$crate" -v task=named -f tools/places.awk "$@"
}

# The files that edits change, in one line, by their paths in the crate.
files_of() { # EDIT..
    sed -n -e 's,^file: crates/[^/]*/,,p' -e t -e 's/^file: //p' "$@" | sort -u | paste -sd' '
}

listed() { # lines as one
    paste -sd, | sed 's/,/, /g'
}
