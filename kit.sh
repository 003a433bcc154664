# To be sourced: where the tools of the Rattle kit lie, and how programs and the library are proved and built.

# say WORD..: a line on standard error, under the name of the script that is run.
say() { printf '%s: %s\n' "${0##*/}" "$*" >&2; }

command -v rt >/dev/null || { say "the Rattle kit's rt is not on the PATH"; exit 2; }
kit=$(dirname "$(dirname "$(readlink -f "$(command -v rt)")")")
tools=$kit/toolchain
linker=$kit/bin/rattle-link

# where rt leaves a program, and where the library's archive stands, below the top of the repository
program_of() { printf 'crates/%s/out/%s' "$1" "$1"; }
library=target/staticlib/libfoliocrane.a

# standing ROOT: the kit, and what stands in each crate's folder beside the folder out, which is rt's own.
standing() { (cd "$1" && printf '%s\n' "$(cat "$kit/KIT-ID" 2>/dev/null)" crates/*/* | grep -v '/out$'); }

# unchanged ROOT NAME: whether the program NAME was built by this kit and no file that a program is built from has changed since. What
# counts is the time of a file's last change of any kind (ctime), which nobody can set back; a folder has one too, where a file comes or goes.
unchanged() {
    local stamp=$1/target/run/$2
    [ -x "$1/$(program_of "$2")" ] && [ -f "$stamp" ] && [ "$(<"$stamp")" = "$(standing "$1")" ] &&
        [ -z "$(find "$1/crates.txt" "$1"/crates/*/* -name out -prune -o -cnewer "$stamp" -print -quit)" ]
}

# prove FOLDER LOG WORD..: runs rt with the words in a crate's folder. Each crate of which something is proved anew is named on standard
# error as it is proved, as is what rt waits for, and where rt fails all else that it says stands there too, but for what is in order. LOG is
# a file that has all.
prove() {
    local folder=$1 log=$2
    shift 2
    if ! (cd "$folder" && rt "$@" 2>&1 </dev/null) | tee "$log" | sed -un \
        -e '/^crate [a-z0-9_]*: /{s/.* checked=0$//;s/^crate \([a-z0-9_]*\): .*/\1/;h;}' \
        -e '/^logic=proved /{x;s/..*/    & proved/p;s/.*//;x;}' \
        -e 's/^rt: \(.*waiting for .*\)$/    \1/p' >&2; then
        grep -vE '^(checked|statements|library|axioms|logic|crate) |: proved$|^logic=proved ' "$log" >&2 || true
        return 1
    fi
}

# build ROOT NAME..: proves and builds programs where that is not done, and says nothing where all is built. rt then runs each once, on no
# input. A program's stamp is as old as the start of the build, so that a file changed meanwhile is seen the next time.
build() {
    local root=$1 name room
    local todo=() missing=() changed=()
    shift
    for name; do
        unchanged "$root" "$name" && continue
        todo+=("$name")
        if [ ! -x "$root/$(program_of "$name")" ]; then
            missing+=("$name")
        elif [ -f "$root/target/run/$name" ]; then
            changed+=("$name")
        fi
    done
    [ ${#todo[@]} -gt 0 ] || return 0
    if [ ${#missing[@]} -gt 0 ]; then
        say "not built yet: ${missing[*]}. First every crate below is proved, which takes some minutes, once:"
    elif [ ${#changed[@]} -gt 0 ]; then
        say "files have changed since ${changed[*]} was built: it is checked again, and what rests on them proved"
    fi
    mkdir -p "$root/target/run"
    room=$(mktemp -d "$root/target/run/building.XXXXXX")
    standing "$root" >"$room/stamp"
    for name in "${todo[@]}"; do
        if ! prove "$root/crates/$name" "$room/log" run; then
            rm -rf "$room"
            say "$name: not built, see above"
            return 1
        fi
        cp -p "$room/stamp" "$root/target/run/$name"
    done
    rm -rf "$room"
}

# build_library ROOT LOG: proves the library anew and builds its archive, for every x86-64 processor. rt leaves it in a folder that rt ci
# clears.
build_library() {
    prove "$1/crates/foliocrane_c" "$2" lib --cpu=x86-64 || return 1
    mkdir -p "$1/${library%/*}"
    cp "$1/crates/foliocrane_c/out/libfoliocrane_c.a" "$1/$library"
}
