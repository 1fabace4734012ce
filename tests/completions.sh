#!/bin/sh
# What bash, zsh and fish show at a terminal when Tab is pressed behind words of rollout, with the completions that `make install` put where each shell looks for them: the line that
# comes of it, and what is listed. Keys are typed, and the screen is read, by tests/programs/keys.py. It needs Python 3, make, bash and crates/rollout/out/rollout; zsh and fish, and
# bash-completion, are asked where they are.
. "$(dirname "$0")/common.sh"
cd "$top" || exit 1
unset MAKEFLAGS MFLAGS MAKELEVEL MAKEOVERRIDES PREFIX DESTDIR PROGRAM INPUTRC ENV BASH_ENV FPATH LS_COLORS FIGNORE
case $rollout in /*) ;; *) rollout=$top/$rollout ;; esac

make install "PREFIX=$work/installed" "PROGRAM=$rollout" >"$work/said" 2>&1 && pass || fail "make install: $(tail -n 1 "$work/said")"
share=$work/installed/share
mkdir -p "$work/here/sub" "$work/home/.local/share/fish/generated_completions" "$work/zsh"
cd "$work/here" || exit 1
touch play.json notes.txt course.svg 'd$x.json' a@b.json -- -dash.json
cat >inv.json <<'JSON'
{"all": {"vars": {"max_down": 2, "team": {"hosts": {"nobody": {"children": {"none": null}}}, "of": ["x", {"hosts": {"neither": 1}}]}},
         "children": {"web": {"hosts": {"web1": {"down": true, "note": "\"hosts\": {\"not\": 1}"}, "web2": null}}, "store": {"hosts": {"d1": {"x": 1}, "web2": null}}}}}
JSON
cp inv.json 'two words.json'
tr -d '\n' <inv.json >sub/deep.json

# ---- what is typed, and what the screen shows then

# listed WORDS PART: the commands, or the long options, of a help, with a `/` before each
listed() {
    "$rollout" help $1 | sed -n "/^$2:/,/^\$/s/^ *\(-.,\)* *\([a-z-]*\) .*/\2/p" | sed 's|^|/|' | tr -d '\n'
}
numbers=$(sed -n 's/^### \([0-9].*\)/\1/p' "$top/docs/FAULTS.md" | tr ',' '\n' | sed 's/^ *\([0-9]*\).*/\1/' | sed 's|^|/|' | tr -d '\n')
notes=$(sed -n 's/^### \([a-z-]*\)$/\1/p' "$top/docs/NOTES.md" | sed 's|^|/|' | tr -d '\n')
[ "${#numbers}" -gt 100 ] && [ "${#notes}" -gt 100 ] && pass || fail 'the pages list faults and notes'
{
    echo "all | rollout <Tab> | $(listed '' Commands)"
    echo "all | rollout help <Tab> | $(listed '' Commands)"
    for command in limits plan run rehearse check lint explain state; do
        options=$(listed "$command" Options)
        # Where there is but one it is written out.
        case $options in
        /*/*) echo "all | rollout $command --<Tab> | $options" ;;
        *) echo "all | rollout $command --<Tab> | rollout $command ${options#/} _" ;;
        esac
    done
    echo "all | rollout run --forks <Tab> | $(seq 64 | sed 's|^|/|' | tr -d '\n')"
    echo "all | rollout explain <Tab> | $numbers$notes"
    echo "all | rollout lint --allow <Tab> | $notes"
    cat <<'KEYS'
all | rollout pl<Tab> | rollout plan _
all | rollout re<Tab>i<Tab> | rollout rehearse inv.json _
all | rollout help ru<Tab> | rollout help run _
all | true; rollout pl<Tab> | true; rollout plan _
all | rollout nosuch i<Tab> | rollout nosuch i_
all | rollout --v<Tab> | rollout --version _
all | rollout plan --gr<Tab>inv.json pl<Tab> | rollout plan --groups inv.json play.json _
all | rollout plan inv.json play.json --fore<Tab> | rollout plan inv.json play.json --forecast _
all | rollout run --j<Tab> | /--journal/--json
bash fish | rollout run --jo<Tab>n<Tab> | rollout run --journal notes.txt _
zsh | rollout run --jo<Tab>n<Tab> | rollout run --journal=notes.txt _
all | rollout run --journal n<Tab> | rollout run --journal notes.txt _
all | rollout run --journal=n<Tab> | rollout run --journal=notes.txt _
all | rollout run --resume=n<Tab>i<Tab> | rollout run --resume=notes.txt inv.json _
all | rollout run --journal "two<Tab> | rollout run --journal "two words.json" _
all | rollout limits --from n<Tab> | rollout limits --from notes.txt _
all | rollout plan --picture c<Tab> | rollout plan --picture course.svg _
all | rollout plan --picture=c<Tab> | rollout plan --picture=course.svg _
all | rollout plan --failing w<Tab> | rollout plan --failing w_
all | rollout plan inv.json play.json --failing s<Tab> --fore<Tab> | rollout plan inv.json play.json --failing store --forecast _
all | rollout plan inv.json play.json --failing web<Tab> | /web/web1/web2
all | rollout plan inv.json play.json --failing <Tab> | /all/d1/store/web/web1/web2
all | rollout plan inv.json --failing n<Tab> | rollout plan inv.json --failing n_
all | rollout plan notes.txt --failing w<Tab> | rollout plan notes.txt --failing w_
all | rollout run inv.json --up=web1,d<Tab> p<Tab> | rollout run inv.json --up=web1,d1 play.json _
all | rollout rehearse "two words.json" --up d<Tab> p<Tab> | rollout rehearse "two words.json" --up d1 play.json _
all | rollout limits two\ words.json --up s<Tab> --j<Tab> | rollout limits two\ words.json --up store --json _
all | rollout plan sub/deep.json --up web1,web2,w<Tab> p<Tab> | rollout plan sub/deep.json --up web1,web2,web play.json _
all | rollout plan --forecast --failing web1 inv.json p<Tab> | rollout plan --forecast --failing web1 inv.json play.json _
all | rollout plan --color <Tab> | /always/auto/never
all | rollout plan --color n<Tab>i<Tab> | rollout plan --color never inv.json _
all | rollout plan --color=al<Tab> | rollout plan --color=always _
bash zsh | rollout run --forks=6<Tab> | /6/60/61/62/63/64
fish | rollout run --forks=6<Tab> | /--forks=6/--forks=60/--forks=61/--forks=62/--forks=63/--forks=64
all | rollout explain 20<Tab> | /201/202/203/204/205
all | rollout explain 8<Tab> | rollout explain 822 _
all | rollout explain 301 3<Tab> | rollout explain 301 3_
all | rollout explain un<Tab> | /undefined-name/unfilled-placeholder/unknown-group/unlimited-hosts
all | rollout explain unk<Tab> | rollout explain unknown-group _
all | rollout explain idle-<Tab> | /idle-handler/idle-step
all | rollout explain lo<Tab> | /local-command/loose-limit
all | rollout explain idle-step z<Tab> | rollout explain idle-step z_
all | rollout explain qx<Tab> | rollout explain qx_
all | rollout lint --allow no-h<Tab> i<Tab> | rollout lint --allow no-hosts inv.json _
all | rollout lint --allow loo<Tab> i<Tab> | rollout lint --allow loose-limit inv.json _
all | rollout lint --allow no-hosts,sh<Tab> i<Tab> | rollout lint --allow no-hosts,shell-word inv.json _
all | rollout lint --allow=no-hosts,sh<Tab> i<Tab> | rollout lint --allow=no-hosts,shell-word inv.json _
all | rollout lint --allow no-hosts,n<Tab> i<Tab> | rollout lint --allow no-hosts,near-key inv.json _
bash zsh | rollout limits <Tab> | /-dash.json/a@b.json/d$x.json/inv.json/play.json/sub|/two words.json
fish | rollout limits <Tab> | /-dash.json/a@b.json/d$x.json/inv.json/play.json/sub|/two words.json/course.svg/notes.txt
all | rollout limits i<Tab> | rollout limits inv.json _
all | rollout limits tw<Tab> | rollout limits two\ words.json _
all | rollout limits "tw<Tab> | rollout limits "two words.json" _
all | rollout limits d<Tab> | rollout limits d\$x.json _
all | rollout limits s<Tab>d<Tab> | rollout limits sub/deep.json _
all | rollout limits ../here/i<Tab> | rollout limits ../here/inv.json _
all | rollout limits n<Tab> | rollout limits notes.txt _
all | rollout limits -- -d<Tab> | rollout limits -- -dash.json _
bash | rollout limits a@<Tab> | rollout limits a\@b.json _
zsh fish | rollout limits a@<Tab> | rollout limits a@b.json _
all | rollout limits inv.json p<Tab> | rollout limits inv.json p_
all | rollout plan "two words.json" p<Tab> | rollout plan "two words.json" play.json _
all | rollout run inv.json play.json i<Tab> | rollout run inv.json play.json i_
all | rollout check inv.json play.json n<Tab> | rollout check inv.json play.json notes.txt _
all | rollout state inv.json n<Tab> | rollout state inv.json notes.txt _
all | rollout state inv.json <Tab> | /-dash.json/a@b.json/course.svg/d$x.json/inv.json/notes.txt/play.json/sub|/two words.json
all | rollout limits inv.json >n<Tab> | rollout limits inv.json >notes.txt _
all | rollout rehearse inv.json play.json < n<Tab> | rollout rehearse inv.json play.json < notes.txt _
all | rollout run 2>notes.txt inv.json p<Tab> | rollout run 2>notes.txt inv.json play.json _
all | rollout run inv.json > notes.txt p<Tab> | rollout run inv.json > notes.txt play.json _
KEYS
} >"$work/rows"
# A few of them, where a shell is asked once more.
grep '^all | rollout \(pl<\|run --journal=n\|explain 20\|lint --allow=no-hosts,sh\|run inv.json --up\|limits tw\|run 2>\)' "$work/rows" >"$work/few"

# ---- each shell, all at once

# ask NAME SHELL ROWS WORD..: types the rows at a shell, and puts what comes of it into `said.NAME`
asked=
ask() {
    asked="$asked $1"
    name=$1
    shift
    TERM=xterm HOME="$work/home" PATH="$work/installed/bin:$PATH" timeout -k 5 900 python3 "$top/tests/programs/keys.py" "$@" >"$work/said.$name" 2>&1 </dev/null &
}
# has FILE|NAME: whether this is here
has() {
    { command -v "$1" || ls "$1"; } >/dev/null 2>&1 && return
    echo "passed over: no $1"
    false
}
# Long lists are shown without a question, a page and a bell.
asks="PS1='$ '; bind 'set completion-query-items 0'; bind 'set page-completions off'; bind 'set bell-style none'; bind 'set enable-bracketed-paste off'"
printf '%s\n' "$asks" "source '$share/bash-completion/completions/rollout'" >"$work/bashrc"
ask bash bash "$work/rows" bash --noprofile --rcfile "$work/bashrc" -i
printf '%s\n' "$asks" "source '$share/bash-completion/completions/rollout'" "set -u; IFS=:,; shopt -s failglob nocasematch; shopt -u extglob" >"$work/odd.bashrc"
ask bash.odd bash "$work/few" bash --noprofile --rcfile "$work/odd.bashrc" -i
found=/usr/share/bash-completion/bash_completion
if has "$found"; then
    printf '%s\n' "$asks" "XDG_DATA_DIRS='$share'" "source $found" >"$work/found.bashrc"
    ask bash.found bash "$work/few" bash --noprofile --rcfile "$work/found.bashrc" -i
fi
if has zsh; then
    cat >"$work/zsh/.zshrc" <<ZSHRC
PS1='$ ' LISTMAX=500
unsetopt beep prompt_sp
fpath=('$share/zsh/site-functions' \$fpath)
autoload -Uz compinit
compinit -D -u
ZSHRC
    ask zsh zsh "$work/rows" env ZDOTDIR="$work/zsh" zsh -d -i
fi
if has fish; then
    asks="set -g fish_greeting; set -g fish_autosuggestion_enabled 0; function fish_prompt; printf '$ '; end"
    ask fish fish "$work/rows" env XDG_DATA_DIRS="$share:/usr/local/share:/usr/share" XDG_CONFIG_HOME="$work/home/.config" fish -C "$asks"
fi
wait
for name in $asked; do
    counting cat "$work/said.$name"
done
finish
