# For .ci/run, compare/run, hosts/run and hosts/view, which source it: looking for what is needed, making what is
# proved, building crates, running and counting tests. They set `root`, the repository, `workspace`, the folder of a
# Cargo.toml, and `log`, a file for what a command says.
passed=0
failed=0
. "$root/compare/x86-64.bash"

# Looks for all programs that a run needs before its long work, and for what runs programs for x86-64. What is missing is
# installed from Debian's packages by root; else it is told, and the run ends with status 2.
need_all() {
    use_x86_64 || exit 2
    need "$@"
}

need() {
    local program missing=() packages=()
    for program in "$@"; do
        command -v "$program" >/dev/null && continue
        missing+=("$program")
        read -ra packages <<<"${packages[*]} $(packages_of "$program")"
    done
    if [ "${#missing[@]}" -gt 0 ]; then
        get "${missing[*]}" "${packages[@]}" || exit 2
    fi
    case " $* " in *' rt '*) say_kit ;; esac
}

# Looks for what building over a crate's archive needs; the kit only where the archive is still to be made.
need_to_build() {
    local needs=(cc cargo rustc)
    is_made "$(archive_of "$1")" || needs=(rt "${needs[@]}")
    need_all "${needs[@]}"
}

# Debian's packages that hold a program; none holds rt.
packages_of() {
    case $1 in
    rt) ;;
    cc) echo gcc libc6-dev ;;
    c++) echo g++ ;;
    *) echo "$1" ;;
    esac
}

# Gets what is missing, or tells what to do: get "PROGRAM.." [PACKAGE..]
get() {
    local names=$1
    shift
    case " $names " in
    *' rt '*)
        echo "rt is missing: the Rattle kit is not here, and no package has it. Put its folder bin into PATH." >&2
        ;;
    *) install_packages "$names" "$@" && return ;;
    esac
    [ $# -eq 0 ] || echo "missing: ${names#rt }. As root, install what Debian has: apt-get install $*" >&2
    return 1
}

# Installs packages, if root can, so that no program is missing: install_packages "PROGRAM.." PACKAGE..
install_packages() {
    local names=$1 name
    shift
    [ "$(id -u)" -eq 0 ] && command -v apt-get >/dev/null || return
    echo "missing: $names; installing $* from Debian's packages" >&2
    export DEBIAN_FRONTEND=noninteractive
    { apt-get install -y "$@" || { apt-get update && apt-get install -y "$@"; }; } >"$log" 2>&1 || tail -n 5 "$log" >&2
    for name in $names; do
        command -v "$name" >/dev/null || return
    done
}

# A line where the kit's logic is not the one that the proofs were checked with (.kit has the line of rt version).
say_kit() {
    local pinned here
    pinned=$(<"$root/.kit")
    here=$(rt version 2>&1 | head -n 1)
    [ "${here##* logic }" = "${pinned##* logic }" ] && return
    echo "The proofs were checked with $pinned; this kit is ${here:-of no version}, and may judge them otherwise." >&2
}

# The program rows, proved here.
make_rows() {
    make_proved rows run "$root/target/bin/rows"
}

# The archive of a crate that is proved here; no other archive is linked.
make_archive() {
    unset PURETAKOI_ARCHIVE
    make_proved "$1" lib "$(archive_of "$1")"
}

archive_of() {
    echo "$root/target/staticlib/lib$1.a"
}

# Proves a crate and what it needs, and copies what that built, its archive or its program, to where it is looked for. One
# that is newer than all that is proved is not made again: make_proved CRATE lib|run FILE
make_proved() {
    is_made "$3" && return
    echo "proving $1 and what it needs, $(crates_for "$1") crates: some minutes" >&2
    prove "$2" "$1" || return
    mkdir -p "$(dirname "$3")" && cp "$root/crates/$1/out/$(basename "$3")" "$3" 2>"$log" && return
    count_failure "copy of what rt $2 built in crates/$1" "$(cat "$log")"
    return 1
}

# Whether an archive or a program is newer than all that is proved.
is_made() {
    [ -f "$1" ] && [ -z "$(cd "$root" && find crates.txt crates/*/{src,specs,proofs} -newer "$1" -print -quit 2>/dev/null)" ]
}

# Runs rt in a crate's folder and shows how far it is: prove lib|run CRATE. A program that it runs reads no bytes.
prove() {
    (cd "$root/crates/$2" && rt "$1" </dev/null) 2>&1 | show_proofs "$(crates_for "$2")"
    [ "${PIPESTATUS[0]}" -eq 0 ] && return
    count_failure "rt $1 in crates/$2" "$(grep -v ': proved$' "$log")"
    return 1
}

# How many crates are proved for one: itself and all that it needs of crates.txt.
crates_for() {
    awk -F: -v crate="$1" '
        function visit(name, words, i) {
            if (!(name in needs) || seen[name]++) return
            count++
            for (i = split(needs[name], words, " "); i > 0; i--) visit(words[i])
        }
        !/^ *(#|$)/ { split($1, words, " "); needs[words[1]] = $2 }
        END { visit(crate); print count + 0 }' "$root/crates.txt"
}

# Shows how far rt is by what it says, which goes into the log: a bar on a terminal, else a line for each crate that
# was still to be proved. show_proofs COUNT
show_proofs() {
    local count=$1 proved=0 name="" told="" checked=0 line part="" began=$SECONDS
    : >"$log"
    while :; do
        if IFS= read -r -t 1 line; then
            line=$part$line part=""
            printf '%s\n' "$line" >>"$log"
            if [[ $line =~ ^crate\ ([A-Za-z0-9_]+):\ modules\ loaded=[0-9]+\ checked=([0-9]+)$ ]]; then
                name=${BASH_REMATCH[1]} checked=${BASH_REMATCH[2]}
            fi
            [[ $line == logic=proved* && $name != "$told" ]] || continue
            proved=$((proved + 1)) told=$name
            [ "$checked" -gt 0 ] || [ -t 2 ] || continue
        elif [ $? -le 128 ]; then
            break
        else
            part=$part$line
            [ -t 2 ] || continue
        fi
        say_step "$count" "$proved" "$name" $((SECONDS - began))
    done
    printf '%s' "$part" >>"$log"
    [ ! -t 2 ] || printf '\r\033[K' >&2
}

# One step of the proofs: say_step COUNT PROVED NAME SECONDS
say_step() {
    local cells=20 full time="$(($4 / 60)) min $(($4 % 60)) s" bar
    if [ ! -t 2 ]; then
        echo "proved $2 of $1: $3, $time" >&2
        return
    fi
    full=$(($2 * cells / ($1 > 0 ? $1 : 1)))
    printf -v bar '%*s' "$full" ''
    printf -v bar '%-*s' "$cells" "${bar// /#}"
    printf '\r\033[K[%s] %s of %s%s, %s' "${bar// /-}" "$2" "$1" "${3:+: $3}" "$time" >&2
}

# Builds crates of the workspace, all of them where none is named.
build() {
    (cd "$workspace" && cargo build --quiet --offline --locked --release "${@/#/--package=}") >"$log" 2>&1 && return
    count_failure "build of ${*:-all crates}" "$(cat "$log")"
    return 1
}

# Runs a program that says `ok NAME (N cases)` or `FAILED NAME` for each test, and counts what it says.
run_tests() {
    local status
    "$@" >"$log" 2>&1
    status=$?
    cat "$log"
    passed=$((passed + $(grep -c '^ok ' "$log")))
    failed=$((failed + $(grep -c '^FAILED ' "$log")))
    if [ "$status" -ne 0 ] && ! grep -q '^FAILED ' "$log"; then
        count_failure "$(basename "$1")" "  it ended with status $status"
    elif ! grep -Eq '^(ok|FAILED) ' "$log"; then
        count_failure "$(basename "$1")" "  it tried nothing"
    fi
}

count_pass() {
    echo "ok $1"
    passed=$((passed + 1))
}

count_failure() {
    printf 'FAILED %s\n%s\n' "$1" "$2"
    failed=$((failed + 1))
}
