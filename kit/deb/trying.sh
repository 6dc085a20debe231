# To be sourced by trials of packages: a folder for them, what is counted, and the system into which they are installed.
#   room   a folder that is taken away at the end, with the file log
#   root   the system: a bare Debian, or an empty folder
# shellcheck shell=bash disable=SC2034,SC2154

suite=bookworm
# shellcheck source=host/counting.sh
. host/counting.sh
room=$(mktemp -d) || exit 1
trap 'rm -rf "$room"' EXIT

in_system() { chroot "$root" "$@"; }

bare_system() { # PACKAGES AND FILES: what the system gets, from Debian or from here
    { [ -d "$root/usr" ] || debootstrap --variant=minbase "$suite" "$root" >"$room/log" 2>&1; } || return
    local each given=()
    for each in "$@"; do
        if [ -e "$each" ]; then
            cp "$each" "$root/" && each=/${each##*/}
        fi
        given+=("$each")
    done
    in_system apt-get -q -y --no-install-recommends install "${given[@]}" >>"$room/log" 2>&1
}

empty_folder() { # FILES
    mkdir -p "$root/var/lib/dpkg/updates" "$root/var/lib/dpkg/info" && : >"$root/var/lib/dpkg/status" &&
        dpkg --root="$root" --force-depends --force-architecture --force-not-root --force-script-chrootless -i "$@" >"$room/log" 2>&1
}

taken_away() { # HOW PACKAGES: --bare or nothing
    if [ "$1" = --bare ]; then
        in_system dpkg --purge "${@:2}" >"$room/log" 2>&1
    else
        dpkg --root="$root" --force-not-root --force-script-chrootless --purge "${@:2}" >"$room/log" 2>&1
    fi
}

answers() { # STATUS FIRST-LINE COMMAND...
    local status=$1 line=$2 said
    shift 2
    said=$("$@" 2>&1)
    [ "$?" -eq "$status" ] && [ "${said%%$'\n'*}" = "$line" ]
}

has_copyright_and_changelog() { # PACKAGE VERSION
    local doc=$root/usr/share/doc/$1
    grep -q '^Copyright ' "$doc/copyright" && gzip -dc "$doc/changelog.gz" | head -n 1 | grep -qF "$1 ($2) "
}

missing_paths() { # README: those that it names and that are not there
    grep -o '/usr/[a-zA-Z0-9./_-]*' "$1" | while read -r path; do
        [ -e "$root${path%[./]}" ] || echo "$path"
    done
}
