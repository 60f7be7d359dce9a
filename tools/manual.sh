#!/bin/sh
# SPDX-License-Identifier: Apache-2.0
# manual.sh FOLDER: makes manual pages and completions for shells of the texts that `fm3130 help` shows. What is written:
#
#   FOLDER/man/man1/fm3130.1            the command, and fm3130-COMMAND.1 for each of its commands
#   FOLDER/man/man5/fm3130-script.5     how scripts are written, and so each page that is no command's
#   FOLDER/bash, FOLDER/zsh, FOLDER/fish   what each shell offers behind `fm3130`
#
# A page says word for word what `fm3130 help` says. The commands are those of its list, the options of a command those of its
# synopsis: an option that takes a FILE is completed by files, one that takes a PART by the parts. FOLDER is made anew.
# shellcheck disable=SC2016 # what the shells are to expand stands in single quotes
set -eu

[ $# = 1 ] || { echo "usage: manual.sh FOLDER" >&2; exit 2; }
texts=$(cd "$(dirname "$0")/.." && pwd)/rust/fm3130-cli/src/help
version=$(sed -n 's/^.define FM3130_VERSION "\(.*\)"$/\1/p' "$(dirname "$0")/../include/fm3130.h")
folder=$1
parts='fm3130 fm3164 fm31256'
rm -rf "$folder"
mkdir -p "$folder/man/man1" "$folder/man/man5"

# ---- manual pages

# A text as a manual page. The lines stand as they are; only the page's name is written in one word.
page() { # NAME SECTION
    awk -v name="$1" -v section="$2" -v version="$version" '
        BEGIN { printf ".TH %s %s \"\" \"fm3130 %s\"\n", toupper(name), section, version }
        NR == 1 { next } # the licence
        /^[A-Z]/ { if (open) print ".fi"; printf ".SH %s\n.in 4n\n.nf\n", $0; part = $0; open = 1; next }
        part == "NAME" && / - / { sub(/^ *(fm3130 )?[a-z0-9]+ - /, name " - ") }
        {
            sub(/^    /, "")
            gsub(/\\/, "\\e")
            gsub(/-/, "\\-")
            if ($0 ~ /^[.\047]/) $0 = "\\&" $0
            print
        }
        END { if (open) print ".fi" }'
}

commands=$(awk '/^[A-Z]/ { inside = $0 == "COMMANDS" } inside && /^    [a-z]+  / { print $1 }' "$texts/help.txt" | paste -sd' ')
topics=''
for text in "$texts"/*.txt; do
    name=$(basename "$text" .txt)
    case "$name, $commands " in
    help,*) page fm3130 1 <"$text" >"$folder/man/man1/fm3130.1" ;;
    *" $name "*) page "fm3130-$name" 1 <"$text" >"$folder/man/man1/fm3130-$name.1" ;;
    *)
        page "fm3130-$name" 5 <"$text" >"$folder/man/man5/fm3130-$name.5"
        topics="$topics $name"
        ;;
    esac
done

# ---- completions

# What `fm3130 help` says of a command, in its list.
said_of() { # COMMAND
    awk -v command="$1" '/^[A-Z]/ { inside = $0 == "COMMANDS" }
        inside && $1 == command { sub(/^ *[a-z]+ +/, ""); gsub(/[`\047"]/, ""); print; exit }' "$texts/help.txt"
}

# The options in a command's synopsis, each with the word behind it, FILE or PART or another, if it has one.
options_of() { # COMMAND
    [ -f "$texts/$1.txt" ] && [ "$1" != help ] || return 0
    awk '/^[A-Z]/ { inside = $0 == "SYNOPSIS" }
        inside { text = text " " $0 }
        END {
            gsub(/\[|\]/, " ", text)
            count = split(text, words, " ")
            for (i = 1; i <= count; i++) if (words[i] ~ /^--?[a-z]/ && !(words[i] in seen)) {
                seen[words[i]] = 1
                value = words[i + 1] ~ /^[A-Z]+(@SELECT)?$/ ? words[i + 1] : ""
                sub(/@SELECT/, "", value)
                print words[i], value
            }
        }' "$texts/$1.txt"
}

# Bash: the first word is a command; then come options, parts behind --part, pages behind help, and files.
{
    echo '# bash completion for fm3130, made of what `fm3130 help` says.'
    echo '_fm3130() {'
    echo '    local word=${COMP_WORDS[COMP_CWORD]} offered=""'
    echo '    case $COMP_CWORD,${COMP_WORDS[COMP_CWORD - 1]},${COMP_WORDS[1]},$word in'
    printf '    1,*) offered="%s" ;;\n' "$commands"
    printf '    *,--part,*) offered="%s" ;;\n' "$parts"
    printf '    *,help,*) offered="%s" ;;\n' "$commands$topics"
    for command in $commands; do
        options=$(options_of "$command" | cut -d' ' -f1 | paste -sd' ')
        [ -z "$options" ] || printf '    *,%s,-*) offered="%s" ;;\n' "$command" "$options"
    done
    echo '    *) compopt -o filenames && mapfile -t COMPREPLY < <(compgen -f -- "$word") && return ;;'
    echo '    esac'
    echo '    mapfile -t COMPREPLY < <(compgen -W "$offered" -- "$word")'
    echo '}'
    echo 'complete -F _fm3130 fm3130'
} >"$folder/bash"

# Zsh: the same, with what is said of a command.
{
    echo '#compdef fm3130'
    echo '# Made of what `fm3130 help` says.'
    echo 'local -a commands=('
    for command in $commands; do printf "    '%s:%s'\n" "$command" "$(said_of "$command")"; done
    echo ')'
    echo 'local state line'
    echo "_arguments -C '1:command:->command' '*::word:->words'"
    echo 'case $state,$line[1] in'
    echo 'command,*) _describe command commands ;;'
    for command in $commands; do
        options_of "$command" | awk -v command="$command" -v parts="$parts" '
            NR == 1 { printf "words,%s) _arguments", command }
            {
                action = $2 == "" ? "" : $2 == "PART" ? ":part:(" parts ")" : ":" tolower($2) ":_files"
                printf " \047*%s%s\047", $1, action
            }
            END { if (NR) print " \047*:file:_files\047 ;;" }'
    done
    printf 'words,help) _values page %s ;;\n' "$commands$topics"
    echo 'esac'
} >"$folder/zsh"

# Fish: the same; files are offered where a command takes them.
{
    echo '# fish completion for fm3130, made of what `fm3130 help` says.'
    for command in $commands; do
        printf "complete -c fm3130 -f -n __fish_use_subcommand -a %s -d '%s'\n" "$command" "$(said_of "$command")"
        options_of "$command" | awk -v command="$command" -v parts="$parts" '{
            name = $1 ~ /^--/ ? "-l " substr($1, 3) : "-s " substr($1, 2)
            value = $2 == "" ? "" : $2 == "PART" ? " -x -a \"" parts "\"" : " -r"
            printf "complete -c fm3130 -n \"__fish_seen_subcommand_from %s\" %s%s\n", command, name, value
        }'
    done
    printf 'complete -c fm3130 -f -n "__fish_seen_subcommand_from help" -a "%s"\n' "$commands$topics"
} >"$folder/fish"
