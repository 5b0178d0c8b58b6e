# What the programs over QuickFIX are built with: a C++ compiler and QuickFIX's headers and library. Sourced by tests/engine/run and bench/run, which have `say` and `give_up`.
#   quickfix_for PROCESSOR    installs by name what is missing, where it can, and sets cxx to the compiler; gives up with what to install where it cannot
#   need COMMAND PACKAGE      the same for one command of one package

# runs the rest for at most $1 seconds
within() {
    if command -v timeout >/dev/null 2>&1; then timeout "$@"; else
        shift
        "$@"
    fi
}

# the first of these commands that there is
first_command() {
    for name in "$@"; do
        command -v "$name" >/dev/null 2>&1 && { printf '%s\n' "$name"; return; }
    done
}

has_quickfix() {
    [ -n "$cxx" ] && printf '#include <quickfix/Message.h>\n' | "$cxx" -std=c++11 -w -x c++ -fsyntax-only - >/dev/null 2>&1
}

# gives up where nothing can be installed here
may_install() {
    say "missing: $1"
    if [ "$(id -u)" != 0 ] || ! command -v apt-get >/dev/null 2>&1; then
        give_up "install it by your system's means (Debian: apt-get install $1) and run this again"
    fi
    say "installing it with apt-get"
}

install_packages() {
    export DEBIAN_FRONTEND=noninteractive
    # shellcheck disable=SC2086
    within 300 apt-get install -y -q $1 >/dev/null 2>&1 ||
        { within 300 apt-get update -q >/dev/null 2>&1 && within 300 apt-get install -y -q $1 >/dev/null 2>&1; }
}

need() {
    command -v "$1" >/dev/null 2>&1 && return
    may_install "$2"
    install_packages "$2" && command -v "$1" >/dev/null 2>&1 || give_up "apt-get could not install $2"
}

quickfix_for() {
    other=
    compilers="${CXX:-} c++ g++ clang++" package=g++ library=libquickfix-dev
    if [ "$1" != "$(uname -m)" ]; then
        # a machine of another kind: the compiler and the library for the processor that is asked for
        other=yes compilers="$1-linux-gnu-g++" package=g++-$(printf '%s' "$1" | tr _ -)-linux-gnu library=libquickfix-dev:amd64
    fi
    # shellcheck disable=SC2086
    cxx=$(first_command $compilers)
    missing=
    [ -n "$cxx" ] || missing=$package
    has_quickfix || missing="$missing $library"
    missing=${missing# }
    [ -n "$missing" ] || return 0
    may_install "$missing"
    [ -z "$other" ] || dpkg --add-architecture amd64 || give_up "dpkg cannot add the packages of the other processor"
    install_packages "$missing" || give_up "apt-get could not install $missing"
    # shellcheck disable=SC2086
    cxx=$(first_command $compilers)
    has_quickfix || give_up "$missing was installed, but a program with QuickFIX's headers still does not compile"
}
