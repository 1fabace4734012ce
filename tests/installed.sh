#!/bin/sh
# What stands beside the program once it is installed: that its manual page, the completions of three shells and the pages have the commands, options, faults and statuses
# that the program has; that the page's examples print what stands there; that `make install` writes what it should, and `make uninstall` takes away just that; and that
# bash, zsh and fish offer what they should. It needs Python 3.11, make, bash and crates/rollout/out/rollout; groff, mandoc, zsh and fish are asked where they are.
. "$(dirname "$0")/common.sh"
cd "$top" || exit 1
# What a `make` above this one was given is not for those below; and nobody but root could read what an install left to such a mask.
unset MAKEFLAGS MFLAGS MAKELEVEL MAKEOVERRIDES PREFIX DESTDIR PROGRAM
umask 077
case $rollout in /*) ;; *) rollout=$top/$rollout ;; esac

# holds WHAT COMMAND WORD..: the command succeeds
holds() {
    what=$1
    shift
    if "$@" >"$work/said" 2>&1; then
        pass
    else
        fail "$what"
        head -n 20 "$work/said"
    fi
}

# same WHAT: the files `expected` and `found` are the same
same() {
    holds "$1" diff "$work/expected" "$work/found"
}

# has NAME: whether this program is here
has() {
    command -v "$1" >/dev/null 2>&1 && return
    echo "left out: no $1"
    false
}

# ---- what each text has of commands, options, statuses and faults

python3 tests/house/usage.py "$rollout" >"$work/said" 2>&1
counts=$(tail -n 1 "$work/said" | sed -n 's/^\([0-9]*\) passed, \([0-9]*\) failed$/\1 \2/p')
if [ -n "$counts" ]; then
    sed '$d' "$work/said"
    passed=$((passed + ${counts% *}))
    failed=$((failed + ${counts#* }))
else
    fail 'the texts are not compared'
    cat "$work/said"
fi

# ---- the manual pages are drawn, without a warning

: >"$work/expected"
for page in man/rollout.1 man/rollout-supervise.1; do
    if has groff; then
        groff -man -ww -Tutf8 -z $page >"$work/found" 2>&1
        same "groff draws $page"
    fi
    if has mandoc; then
        mandoc -T lint -W warning $page >"$work/found" 2>&1
        same "mandoc draws $page"
    fi
    LC_ALL=C grep -n '[^ -~]' $page >"$work/found"
    same "$page has no character but those that each system draws"
done

# ---- installing

stage="$work/a stage"
share=usr/local/share
put_in() {
    make install "DESTDIR=$stage" "PROGRAM=$rollout" "$@"
}
take_out() {
    make uninstall "DESTDIR=$stage" "$@"
}
# written: what stands in the stage
written() {
    find "$stage" -mindepth 1 | LC_ALL=C sort
}

holds 'make install' put_in
{
    echo "755 $stage/usr/local/bin/rollout"
    echo "755 $stage/usr/local/bin/rollout-supervise"
    echo "644 $stage/$share/man/man1/rollout.1"
    echo "644 $stage/$share/man/man1/rollout-supervise.1"
    echo "644 $stage/$share/bash-completion/completions/rollout"
    echo "644 $stage/$share/zsh/site-functions/_rollout"
    echo "644 $stage/$share/fish/vendor_completions.d/rollout.fish"
    echo "644 $stage/$share/doc/rollout/installed"
    # Scripts among the examples may be run where they stand.
    find *.md LICENSE* docs bench/README.md tests/*/README.md examples -type f ! -perm -100 | sed "s|^|644 $stage/$share/doc/rollout/|"
    find examples -type f -perm -100 | sed "s|^|755 $stage/$share/doc/rollout/|"
} | LC_ALL=C sort >"$work/expected"
find "$stage" -type f -exec stat -c '%a %n' {} + | LC_ALL=C sort >"$work/found"
same 'the files that are installed, with their modes'
: >"$work/expected"
find "$stage" -mindepth 1 -type d ! -perm 755 >"$work/found"
same 'each folder may be read by all'
sed -n "s|^file |$stage|p" "$stage/$share/doc/rollout/installed" | LC_ALL=C sort >"$work/expected"
find "$stage" -type f ! -name installed | LC_ALL=C sort >"$work/found"
same 'the list of what is installed'
for pair in "$rollout|usr/local/bin/rollout" "bin/rollout-supervise|usr/local/bin/rollout-supervise" "man/rollout.1|$share/man/man1/rollout.1" \
    "man/rollout-supervise.1|$share/man/man1/rollout-supervise.1" "completions/rollout.bash|$share/bash-completion/completions/rollout" \
    "completions/_rollout|$share/zsh/site-functions/_rollout" "completions/rollout.fish|$share/fish/vendor_completions.d/rollout.fish"; do
    holds "installed as it is: ${pair#*|}" cmp "${pair%|*}" "$stage/${pair#*|}"
done
for folder in docs examples; do
    holds "installed as it is: $folder" diff -r "$folder" "$stage/$share/doc/rollout/$folder"
done
: >"$work/expected"
(
    cd "$stage/$share/doc/rollout" || exit 1
    find . -name '*.md' | while IFS= read -r page; do
        grep -o ']([^)]*)' "$page" | sed 's/^](//; s/)$//; s/#.*//' | grep -v '://' | sort -u | while IFS= read -r link; do
            [ -e "${page%/*}/$link" ] || echo "$page: $link"
        done
    done
) >"$work/found"
same 'the links of the pages that are installed'

# ---- the examples of the manual page, as somebody runs them who installed it

# Each example as the page's reader sees it: a command behind `$ `, which goes on behind a backslash, and what it prints.
awk -v work="$work" '
    /^\.nf$/ { inside = 1; next }
    /^\.fi$/ { inside = 0; next }
    !inside { next }
    { gsub(/\\-/, "-"); gsub(/\\\(aq/, "\047"); gsub(/\\&/, ""); gsub(/\\e/, "\\") }
    /^\$ / { count++; file = work "/command." count; printf "" >(work "/printed." count); sub(/^\$ /, ""); goes_on = 1 }
    !count { next }
    goes_on { print >file; goes_on = /\\$/; next }
    { print >(work "/printed." count) }
' man/rollout.1
number=1
while [ -e "$work/command.$number" ]; do
    cp "$work/printed.$number" "$work/expected"
    (
        cd "$stage/$share/doc/rollout" || exit 1
        PATH=$stage/usr/local/bin:$PATH
        . "$work/command.$number"
    ) </dev/null >"$work/found" 2>&1
    same "the example $number of the manual page"
    number=$((number + 1))
done
for command in limits plan run rehearse state check lint explain; do
    holds "the manual page has an example of $command" grep -q "rollout $command" "$work"/command.*
done

# ---- once more, beside what others have there, and taken away

written >"$work/expected"
echo 'file /usr/local/share/doc/rollout/of-an-earlier-one' >>"$stage/$share/doc/rollout/installed"
touch "$stage/$share/doc/rollout/of-an-earlier-one"
holds 'make install over an earlier one' put_in
written >"$work/found"
same 'what an earlier one wrote and this one does not goes away'
touch "$stage/$share/doc/rollout/mine" "$stage/usr/local/bin/other"
holds 'make uninstall beside files of others' take_out
printf '%s\n' "$stage/usr" "$stage/usr/local" "$stage/usr/local/bin" "$stage/usr/local/bin/other" "$stage/$share" "$stage/$share/doc" "$stage/$share/doc/rollout" \
    "$stage/$share/doc/rollout/mine" >"$work/expected"
written >"$work/found"
same 'make uninstall leaves what others wrote'
rm -rf "$stage"
mkdir -p "$stage/$share/man/man1"
written >"$work/expected"
holds 'make install beside empty folders' put_in
holds 'make uninstall beside empty folders' take_out
written >"$work/found"
same 'make uninstall leaves folders that were there before'
rm -rf "$stage"
holds 'make install' put_in
holds 'make uninstall' take_out
: >"$work/expected"
written >"$work/found"
same 'make uninstall leaves nothing'
rm -rf "$stage"
holds 'make install below a PREFIX with a blank' put_in 'PREFIX=/opt/my tools/'
holds 'the program below that PREFIX' "$stage/opt/my tools/bin/rollout" --version
holds 'the script below that PREFIX, which runs the program next to it' env -u ROLLOUT "$stage/opt/my tools/bin/rollout-supervise" run --help
holds 'make uninstall below that PREFIX' take_out 'PREFIX=/opt/my tools'
written >"$work/found"
same 'make uninstall below a PREFIX leaves nothing'

# refuses WHAT TEXT COMMAND WORD..: the command fails, says this on standard error, and writes nothing
refuses() {
    what=$1
    says=$2
    shift 2
    "$@" >/dev/null 2>"$work/errors"
    status=$?
    if [ "$status" -ne 0 ] && grep -qF -- "$says" "$work/errors" && [ -z "$(written)" ]; then
        pass
    else
        fail "$what: status $status"
        head -n 5 "$work/errors"
    fi
}
refuses 'make uninstall where nothing is installed' 'nothing is installed below' take_out
refuses 'a PREFIX that is no path from the root on' 'PREFIX is a path from the root on' put_in PREFIX=usr
refuses 'a program that is not there' '`make` proves and builds it' put_in "PROGRAM=$work/no program"
refuses 'a folder in place of the program' '`make` proves and builds it' put_in "PROGRAM=$work"
# A tree in which `make look` built a program, and `make` none.
mkdir -p "$work/tree/tests" "$work/tree/crates/rollout/out/look"
cp -R Makefile *.md LICENSE* bin docs man completions examples "$work/tree"
cp tests/install.sh "$work/tree/tests"
cp "$rollout" "$work/tree/crates/rollout/out/look/rollout"
refuses 'the program of make look' '`make` proves and builds it' make -C "$work/tree" install "DESTDIR=$stage"
printf '#!/bin/sh\n' | tee "$work/tree/crates/rollout/out/rollout" >"$work/expected"
chmod +x "$work/tree/crates/rollout/out/rollout"
holds 'the program of make' env PREFIX=/of-another PROGRAM="$work/tree/crates/rollout/out/look/rollout" make -C "$work/tree" install "DESTDIR=$stage"
cp "$stage/usr/local/bin/rollout" "$work/found"
same 'the program of make is installed, whatever the environment says of another'

# ---- what shells offer

mkdir -p "$work/here/sub"
(cd "$work/here" && touch inv.json play.json notes.txt 'two words.json')
# Lines up to the cursor, and what is offered behind a `>`, parted by `/`. Options and commands are those of the help.
listed() {
    "$rollout" help $1 | sed -n "/^$2:/,/^\$/s/^ *\([^ ].*\)  .*/\1/p" | sed 's/  .*//; s/<[A-Z]*>//; s/,//g' | tr -s ' \n' '//' | sed 's|/$||'
}
{
    echo "rollout >$(listed '' Commands)"
    echo "rollout re>rehearse"
    echo "rollout help re>rehearse"
    echo "rollout ->$(listed '' Options)"
    for command in limits plan run rehearse state check lint explain; do
        echo "rollout $command ->$(listed $command Options)"
    done
    echo "rollout run --forks >$(seq -s / 64)"
    echo 'rollout run --forks 6>6/60/61/62/63/64'
    echo 'rollout limits >inv.json/play.json/sub/two words.json'
    echo 'rollout limits i>inv.json'
    echo 'rollout limits t>two words.json'
    echo 'rollout limits n>notes.txt'
    echo 'rollout limits s>sub'
    echo 'rollout plan inv.json p>play.json'
    echo 'rollout run --forks=6 inv.json p>play.json'
    echo 'rollout run --forks 6 -v inv.json p>play.json'
    echo 'rollout run --stop-file n>notes.txt'
    echo 'rollout run --stop-file -- inv.json p>play.json'
    echo 'rollout run --journal n>notes.txt'
    echo 'rollout run --journal -- inv.json p>play.json'
    echo 'rollout run --no-lock --up a --resume n>notes.txt'
    echo 'rollout run --no-lock --up a --resume notes.txt inv.json p>play.json'
    echo 'rollout limits --from n>notes.txt'
    echo 'rollout limits --from notes.txt --up a i>inv.json'
    echo 'rollout limits --changed-inputs --from notes.txt inv.json p>'
    echo 'rollout plan --from n>notes.txt'
    echo 'rollout plan --forecast --from notes.txt --up a inv.json p>play.json'
    echo 'rollout plan --groups --color >always/auto/never'
    echo 'rollout plan --groups --color a>always/auto'
    echo 'rollout plan --color always inv.json p>play.json'
    echo 'rollout rehearse --from n>notes.txt'
    echo 'rollout rehearse --up a --strict inv.json p>play.json'
    echo 'rollout state --changed-inputs i>inv.json'
    echo 'rollout limits --expect a i>inv.json'
    echo 'rollout plan --commands --expect a inv.json p>play.json'
    echo 'rollout check i>inv.json'
    echo 'rollout check inv.json p>play.json'
    echo 'rollout check inv.json play.json n>notes.txt'
    echo 'rollout check inv.json play.json notes.txt i>'
    echo 'rollout lint i>inv.json'
    echo 'rollout lint --allow a inv.json p>play.json'
    echo 'rollout lint inv.json play.json i>'
    echo 'rollout lint --allow >repeated-key/near-key/group-down/zero-limit/empty-limit/loose-limit/unfilled-placeholder/no-hosts/unlimited-hosts/local-command/undefined-name/unknown-group/constant-test/idle-step/idle-handler/changed-guard/shell-word/dash-name/down-hosts/one-failure'
    echo 'rollout lint inv.json --allow n>near-key/no-hosts'
    echo 'rollout explain qx>'
    echo 'rollout explain d>down-hosts/dash-name'
    echo 'rollout explain 82>822'
    echo 'rollout run -- ->'
    echo 'rollout run inv.json play.json i>'
    echo 'rollout limits inv.json p>'
} >"$work/offers"
sed 's/>.*//' "$work/offers" >"$work/lines"
awk -F '[>/]' '{ if (NF == 2 && $2 == "") print $1 ">"; else for (i = 2; i <= NF; i++) print $1 ">" $i }' "$work/offers" | LC_ALL=C sort -u >"$work/offered.all"

# offered SHELL: the answers of a shell, one a line, are those expected; a row a line
offered() {
    sed 's/\\ / /g; s|/$||' "$work/answers" | LC_ALL=C sort -u >"$work/answers.all"
    while IFS= read -r line; do
        LC_ALL=C awk -v line="$line>" 'index($0, line) == 1' "$work/offered.all" >"$work/expected"
        LC_ALL=C awk -v line="$line>" 'index($0, line) == 1' "$work/answers.all" >"$work/found"
        same "$1 completes '$line'"
    done <"$work/lines"
}

cat >"$work/ask.bash" <<'ASK'
source "$1" || exit 1
complete -p rollout >/dev/null || exit 1
while IFS= read -r COMP_LINE; do
    # As readline parts it, at blanks and at `=`.
    read -ra COMP_WORDS <<<"${COMP_LINE//=/ = }"
    [[ $COMP_LINE != *' ' ]] || COMP_WORDS+=('')
    COMP_CWORD=$((${#COMP_WORDS[@]} - 1)) COMP_POINT=${#COMP_LINE}
    _rollout rollout "${COMP_WORDS[COMP_CWORD]}" "${COMP_WORDS[COMP_CWORD - 1]}"
    printf "$COMP_LINE>%s\n" "${COMPREPLY[@]}"
done
ASK
(cd "$work/here" && bash --norc "$work/ask.bash" "$top/completions/rollout.bash") <"$work/lines" >"$work/answers" 2>"$work/errors"
offered bash
: >"$work/expected"
cp "$work/errors" "$work/found"
same 'bash says nothing besides'
# A part that readline takes for a word of its own: behind `=`, and behind `:` in a file's name.
touch "$work/here/a:b.json"
cat >"$work/parted.bash" <<'ASK'
source "$1"
asked() {
    COMP_LINE=$1
    shift
    COMP_WORDS=("$@")
    COMP_CWORD=$(($# - 1))
    _rollout
    echo "$COMP_LINE>${COMPREPLY[*]}"
}
asked 'rollout run --forks=' rollout run --forks =
asked 'rollout run --forks=7' rollout run --forks = 7
asked 'rollout run --stop-file=no' rollout run --stop-file = no
asked 'rollout limits --from=no' rollout limits --from = no
asked 'rollout plan --color=a' rollout plan --color = a
asked 'rollout lint --allow=n' rollout lint --allow = n
asked 'rollout lint --allow=shell-word,n' rollout lint --allow = shell-word,n
asked 'rollout lint --allow no-hosts,shell-word:d' rollout lint --allow no-hosts,shell-word : d
asked 'rollout run --from=no' rollout run --from = no
asked 'rollout limits a:' rollout limits a :
asked 'rollout limits a:b' rollout limits a : b
asked 'rollout plan a:b.json p' rollout plan a : b.json p
COMP_WORDBREAKS=${COMP_WORDBREAKS//[=:]/}
asked 'rollout run --forks=7' rollout run --forks=7
asked 'rollout run --stop-file=no' rollout run --stop-file=no
asked 'rollout limits a:b' rollout limits a:b
ASK
(cd "$work/here" && bash --norc "$work/parted.bash" "$top/completions/rollout.bash") >"$work/found" 2>&1
cat >"$work/expected" <<EXPECTED
rollout run --forks=>$(seq -s ' ' 64)
rollout run --forks=7>7
rollout run --stop-file=no>notes.txt
rollout limits --from=no>notes.txt
rollout plan --color=a>always auto
rollout lint --allow=n>near-key no-hosts
rollout lint --allow=shell-word,n>shell-word,near-key shell-word,no-hosts
rollout lint --allow no-hosts,shell-word:d>dash-name down-hosts
rollout run --from=no>
rollout limits a:>b.json
rollout limits a:b>b.json
rollout plan a:b.json p>play.json
rollout run --forks=7>--forks=7
rollout run --stop-file=no>--stop-file=notes.txt
rollout limits a:b>a:b.json
EXPECTED
same 'bash completes what stands behind = and :'
rm "$work/here/a:b.json"

if has zsh; then
    # A shell at a terminal of its own asks all lines before its first prompt. What a completion offers goes through `compadd`.
    mkdir "$work/zsh"
    cat >"$work/zsh/.zshrc" <<'ASK'
fpath=($COMPLETIONS $fpath)
autoload -Uz compinit
compinit -D -u
compadd() {
    local -a found
    # A call that only looks, and puts what it finds into a parameter.
    if [[ " ${(j: :)@[1,(i)-(|-)]} " == *' -'[OAD]' '* ]]; then
        builtin compadd "$@"
        return
    fi
    builtin compadd -A found "$@"
    offered+=($found)
    builtin compadd "$@"
}
ask() {
    local line
    for line in "${(@f)$(<$LINES_ASKED)}"; do
        offered=()
        BUFFER=$line
        CURSOR=$#line
        zle complete-word
        print -rl -- "$line>"${^offered:-} >>$ANSWERS
    done
    BUFFER=exit
    zle .accept-line
}
zle -N zle-line-init ask
ASK
    (
        cd "$work/here" || exit 1
        export COMPLETIONS="$top/completions" LINES_ASKED="$work/lines" ANSWERS="$work/answers.zsh" ZDOTDIR="$work/zsh" TERM=xterm
        timeout 30 zsh -f -c 'zmodload zsh/zpty; zpty asked "zsh -d -i"; while zpty -r asked line; do :; done'
    ) </dev/null >/dev/null 2>&1
    # Behind the last file it offers options, which may stand there too.
    grep -v '^rollout \(run inv.json play.json i\|limits inv.json p\|check inv.json play.json notes.txt i\|lint inv.json play.json i\|explain qx\)>-' "$work/answers.zsh" >"$work/answers"
    offered zsh
fi

if has fish; then
    mkdir "$work/fish"
    cat >"$work/ask.fish" <<'ASK'
source $COMPLETIONS
while read -l line
    set -l words (complete -C $line | string replace -r '\t.*' '')
    test (count $words) -gt 0; or set words ''
    printf "$line>%s\n" $words
end
ASK
    (cd "$work/here" && HOME=$work/fish COMPLETIONS="$top/completions/rollout.fish" timeout 30 fish --no-config "$work/ask.fish") <"$work/lines" >"$work/answers.fish" 2>"$work/errors"
    # Files of other names stand behind those of JSON, where the other shells offer them only if none of JSON is there.
    grep -v '^rollout limits >notes.txt$' "$work/answers.fish" >"$work/answers"
    offered fish
    echo 'rollout limits >notes.txt' >"$work/expected"
    grep '^rollout limits >' "$work/answers.fish" | tail -n 1 >"$work/found"
    same 'fish offers files of JSON first'
    : >"$work/expected"
    cp "$work/errors" "$work/found"
    same 'fish says nothing besides'
fi

finish
