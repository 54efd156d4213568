#!/usr/bin/env bash
# Prints a script of a grammar, a text, and commands.
#   bash examples/script.sh json | bin/lbnfchart serve
# takes json.cf, json.txt and json.ask of this folder, and
#   echo has | bash examples/script.sh my.cf my.txt | bin/lbnfchart serve
# two files, and the commands that it reads.
if [[ $# -eq 1 ]]; then
    here=$(dirname "$0")
    set -- "$here/$1.cf" "$here/$1.txt" "$here/$1.ask"
fi
printf 'script 1\ngrammar %d\n' "$(wc -c <"$1")"
cat "$1"
printf '\nopen %d\n' "$(wc -c <"$2")"
cat "$2"
printf '\n'
cat "${3:--}"
printf 'end\n'
