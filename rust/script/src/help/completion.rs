//! Completion for bash, made of the verbs.

use super::{Verb, VERBS};

pub const HELP: &str = "\
bench completion: prints what completes the command's words in bash

  source <(./bench completion)

Verbs, options, files and words to choose from are completed, and `control` where a channel is asked for.

Exit status: 0 printed.
";

/// The script, with the verbs and what stands behind each.
pub fn completion() -> String {
    let verbs: Vec<&str> = VERBS.iter().map(|verb| verb.name).collect();
    let verbs = verbs.join(" ");
    let kinds: String = VERBS.iter().map(kinds).collect();
    format!("{HEAD}    local verbs='{verbs}'\n{WORDS}{kinds}{TAIL}")
}

/// What may stand at each place behind a verb, options apart.
fn kinds(verb: &Verb) -> String {
    let words = verb.arguments.split_whitespace();
    let words = words.map(|word| word.trim_matches(['[', ']']));
    let (options, kinds): (Vec<&str>, Vec<&str>) = words.partition(|word| word.starts_with('-'));
    let kinds: Vec<String> = kinds.iter().map(|kind| format!("'{kind}'")).collect();
    let (name, kinds, options) = (verb.name, kinds.join(" "), options.join(" "));
    format!("    {name}) kinds=({kinds}) options='{options}' ;;\n")
}

const HEAD: &str = "\
# Completion of the command bench for bash: source <(./bench completion)
_bench() {
    local word=${COMP_WORDS[COMP_CWORD]} verb=${COMP_WORDS[1]-} kinds=() options='' place=-2 at
";

/// Options may stand anywhere behind the verb, and do not count.
const WORDS: &str = "    COMPREPLY=()
    for ((at = 1; at <= COMP_CWORD; at++)); do
        case ${COMP_WORDS[at]} in --*) ;; *) place=$((place + 1)) ;; esac
    done
    if [ \"$COMP_CWORD\" -eq 1 ]; then
        mapfile -t COMPREPLY < <(compgen -W \"$verbs --help\" -- \"$word\")
        return
    fi
    case $verb in
";

const TAIL: &str = "    esac
    case $word in -*)
        mapfile -t COMPREPLY < <(compgen -W \"$options --help\" -- \"$word\")
        return
        ;;
    esac
    case ${kinds[place]-} in
    FILE | BEFORE | AFTER) mapfile -t COMPREPLY < <(compgen -f -- \"$word\") ;;
    CHANNEL) mapfile -t COMPREPLY < <(compgen -W control -- \"$word\") ;;
    VERB) mapfile -t COMPREPLY < <(compgen -W \"$verbs\" -- \"$word\") ;;
    *'|'*) mapfile -t COMPREPLY < <(compgen -W \"${kinds[place]//|/ }\" -- \"$word\") ;;
    esac
}
complete -o filenames -F _bench bench ./bench
";
