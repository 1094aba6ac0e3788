usage="[PREFIX]"
about="build, and put the command, the programs and what they need to run under PREFIX"
options=""
takes="one folder, or none" most=1
place=92

explain() {
    cat <<'END'
PREFIX is /usr/local for root and $HOME/.local for others if it is not given. Under it come bin/capellanote, lib/capellanote and
share/man/man1/capellanote.1. What is installed needs neither the toolchain nor the repository, and a PATH with the usual
commands only: it runs from cron. Installed again, it takes the place of what stood there in one step.
To take it away, remove these three.
END
}

# All that is installed, in a new folder.
gather() { # FOLDER
    mkdir -p "$1/bin" "$1/run" "$1/command" || return
    # shellcheck disable=SC2046
    (cd "$here/target/bin" && cp $(all_programs) "$1/bin/") || return
    cp "$loader" "$libs/libc.so.6" ${emulator:+"$emulator"} "$1/run/" || return
    cp "$here/capellanote" "$1/" && cp -R "$here/command/." "$1/command/" || return
    rm -f "$1/command/verbs/build.sh" "$1/command/verbs/install.sh"
    (git -C "$here" rev-parse --short HEAD 2>/dev/null || :) >"$1/commit"
    chmod -R a+rX "$1"
}

# A folder of this install beside the place, in $staged; what installs that were killed outright left there is removed.
stage() { # PLACE
    for staged in "$1".[0-9]*; do
        kill -0 "${staged##*.}" 2>/dev/null || rm -rf "$staged"
    done
    staged=$1.$$
    mkdir "$staged" || die "$staged was not made; is the disk full?"
}

verb() { # [PREFIX]
    [ ! -d "$here/run" ] || die "this is an installed copy; install from the repository"
    . "$here/command/verbs/build.sh"
    build_all
    umask 022 # what is installed is for everybody
    if [ "$(id -u)" = 0 ]; then prefix=/usr/local; else prefix=${HOME:+$HOME/.local}; fi
    prefix=${1:-$prefix}
    [ -n "$prefix" ] || misused "HOME is not set: name the folder to install under"
    case $prefix in /*) ;; *) prefix=./$prefix ;; esac
    mkdir -p "$prefix/lib" "$prefix/bin" "$prefix/share/man/man1" 2>/dev/null && [ -w "$prefix/lib" ] && [ -w "$prefix/bin" ] && [ -w "$prefix/share/man/man1" ] ||
        die "$prefix may not be written by you: name a folder of yours, as in \`capellanote install \$HOME/.local\`"
    prefix=$(cd "$prefix" && pwd -P)
    place=$prefix/lib/capellanote
    stage "$place"
    gather "$staged/new" || die "$place was not written; is the disk full?"
    trap '' HUP INT TERM # from here to the end
    [ ! -e "$place" ] || mv "$place" "$staged/old" 2>/dev/null || :
    mv "$staged/new" "$place" || die "$place was not written; install again"
    rm -rf "$place/new" # where another install was quicker
    ln -sf ../lib/capellanote/capellanote "$prefix/bin/capellanote" || die "$prefix/bin/capellanote was not written"
    [ ! -f "$here/docs/capellanote.1" ] || cp "$here/docs/capellanote.1" "$prefix/share/man/man1/" || die "$prefix/share/man/man1 was not written"
    say 'installed: %s\n' "$prefix/bin/capellanote"
    status=0
}
