# shellcheck shell=bash
# Runs a program of ours as it was built last, on either processor: sourced by tools/drive and tools/listing. Tests start these hundreds of
# times without arguments, so no process is started on the way to the program.

run_program() { # SCRIPT PROGRAM ARGUMENTS..
    local folder=${1%/*} self
    if [ $# = 2 ]; then exec "$folder/run" "$folder/../crates/$2/out/$2"; fi
    self=$(readlink -f -- "$1")
    # shellcheck source=tools/help.sh
    . "${self%/*}/help.sh"
    help_if_asked "$self" "${@:3}"
    misused "$self" 'the program takes no arguments'
}
