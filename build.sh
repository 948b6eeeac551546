# Shared by ./run, ./draw and others: proves and compiles a program of this repository, or the archives for C and Rust, where that is still to be done.
# The caller has set `top`, this folder, and `me`, its own name. What is being built goes to standard error.

# What rt builds in crates/NAME/out is copied to target/bin and target/staticlib, where it stays until something that it is made of changes:
# target/NAME.sum has the sum of the sources that it was built from. The folders out/ are not gone into: rt may be writing there meanwhile.
sum=$(cd "$top" && find crates crates.txt -path 'crates/*/out' -prune -o -type f -not -path '*/must-fail/*' -print0 | LC_ALL=C sort -z | xargs -0 cksum | cksum)
fresh() { # NAME FILE...
    local name=$1 made
    shift
    for made in "$@"; do [ -f "$top/target/$made" ] || return 1; done
    [ "$(cat "$top/target/$name.sum" 2> /dev/null)" = "$sum" ]
}
program_built() { fresh "$1" "bin/$1"; }
archives_built() { fresh staticlib staticlib/libwoldladle.a staticlib/libwoldladle_runs.a; }

# How many crates NAME is made of, itself too and those of the kit left out.
crates() { # NAME
    sed 's/#.*//' "$top/crates.txt" | awk -F: -v todo="$1" '
        NF == 2 { split($1, words, " "); needs[words[1]] = $2 }
        END {
            while (n = split(todo, names, " ")) {
                todo = ""
                for (i = 1; i <= n; i++) if (names[i] in needs && !seen[names[i]]++) { count++; todo = todo " " needs[names[i]] }
            }
            print count
        }'
}
# Runs rt in the folder of a crate, and says which crates are proved; one that has not changed since is not proved again. What rt itself says is shown only if it fails.
quiet_rt() { # VERB NAME
    local count name=$2 line log=$top/target/$me.log
    count=$(crates "$2")
    mkdir -p "$top/target"
    if ! (cd "$top/crates/$2" && rt "$1" < /dev/null) 2>&1 | tee "$log" | while IFS= read -r line; do
        case $line in
        'crate '*': modules '*)
            name=${line#crate }
            name=${name%%:*}
            ;;
        'logic=proved '*) echo "$me: proved $name, one of $count crates, $((SECONDS / 60)) min so far" >&2 ;;
        esac
    done; then
        cat "$log" >&2
        echo "$me: the model could not be built" >&2
        exit 1
    fi
}
# What rt has built from the sources of that sum is copied to target/.
take_program() { # NAME
    mkdir -p "$top/target/bin"
    cp "$top/crates/$1/out/$1" "$top/target/bin/$1.new"
    mv "$top/target/bin/$1.new" "$top/target/bin/$1"
    echo "$sum" > "$top/target/$1.sum"
}
build_program() { # NAME
    program_built "$1" && return
    echo "$me: proving and compiling the program $1, where that is still to be done (some minutes, the first time)" >&2
    quiet_rt run "$1" # on no input; that is what builds it
    take_program "$1"
}
build_archives() {
    local library
    archives_built && return
    mkdir -p "$top/target/staticlib"
    for library in woldladle woldladle_runs; do
        echo "$me: proving and compiling lib$library.a, $((SECONDS / 60)) min so far" >&2
        quiet_rt lib "$library"
        cp "$top/crates/$library/out/lib$library.a" "$top/target/staticlib/"
    done
    echo "$sum" > "$top/target/staticlib.sum"
}
