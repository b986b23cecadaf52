# shellcheck shell=sh
# The solvers known by name: how each is called, and the Debian package it comes in. To be sourced.

# shellcheck disable=SC2034
known_solvers='cadical picosat cryptominisat5'

# a second way to call picosat: it leaves out the variables that do not matter to it
partial_solver=picosat-partial

# the program that is called for a solver
program_of() {
    case $1 in
        "$partial_solver") echo picosat ;;
        *) echo "$1" ;;
    esac
}

package_of() {
    case $1 in
        cadical | picosat) echo "$1" ;;
        "$partial_solver") package_of "$(program_of "$1")" ;;
        cryptominisat5) echo cryptominisat ;;
    esac
}

is_there() {
    program=$(command -v "$(program_of "$1")") && [ -f "$program" ] && [ -x "$program" ]
}

# turns into the solver SOLVER on the formula FORMULA: for a process of its own, and a process group where the system can make one
become_solver() {
    case $1 in
        cadical | */cadical) set -- "$1" -q "$2" ;;
        cryptominisat5 | */cryptominisat5) set -- "$1" --verb 0 "$2" ;;
        "$partial_solver") set -- "$(program_of "$1")" --partial "$2" ;;
    esac
    ! is_there setsid || set -- setsid "$@"
    exec "$@"
}

# installs a solver's package where that is allowed and possible, and says whether the solver is there then
install_solver() {
    is_there "$1" && return
    [ "$(id -u)" -eq 0 ] && is_there apt-get || return
    echo "installing the Debian package $(package_of "$1")" >&2
    DEBIAN_FRONTEND=noninteractive
    export DEBIAN_FRONTEND
    apt-get install -y --no-install-recommends "$(package_of "$1")" >/dev/null 2>&1 ||
        { apt-get update && apt-get install -y --no-install-recommends "$(package_of "$1")"; } >/dev/null 2>&1
    is_there "$1"
}
