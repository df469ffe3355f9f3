#!/usr/bin/env bash
# Types ./try and ./test as the first thing on machines that are bare: Debian 12 with git and the kit, and nothing else. As root:
#   scripts/gate/bare.sh [TRIAL..]     these trials, or all; what is committed here is cloned. ROOM=.. names another folder for the machines
# Not in the gate: it needs debootstrap and a network, and compiles the program three times. Each machine is a copy of one root, in name
# spaces of its own, which end with the trial.
set -euo pipefail
repository=$(dirname "$(dirname "$(dirname "$(readlink -f "$0")")")") room=${ROOM:-/var/tmp/desk-bare}
kit=$(dirname "$(dirname "$(readlink -f "$(command -v rt)")")")

# Makes the root once: the base system, git, a user, and another who may become root by sudo.
make_root() {
    [ ! -e "$room/made" ] || return 0
    mkdir -p "$room"
    debootstrap --variant=minbase --include=git,sudo bookworm "$room/root" http://deb.debian.org/debian > "$room/debootstrap.log"
    chroot "$room/root" sh -c 'useradd --create-home plain; useradd --create-home able; echo "able ALL=(ALL) NOPASSWD: ALL" > /etc/sudoers.d/able'
    cp /etc/resolv.conf "$room/root/etc/"
    touch "$room/made"
}

# In name spaces of its own: mounts the machine over the root, with a clone of the user's in a folder of a name with a space, and runs there
# what $SETUP and then $TYPED say.
INSIDE='
set -e
mount --make-rprivate /
mkdir "$machine/upper" "$machine/work" "$machine/top"
mount -t overlay overlay -o "lowerdir=$room/root,upperdir=$machine/upper,workdir=$machine/work" "$machine/top"
cd "$machine/top"
mkdir -p "./$kit"
mount --rbind "$kit" "./$kit"
ln -s "$kit/bin/rt" usr/local/bin/rt
mount -t proc proc proc
mount --rbind /dev dev
mount -t tmpfs tmpfs dev/shm
export clone="home/$user/the desk"
git clone --quiet "$repository" "$clone"
chroot . chown -R "$user" "/home/$user"
eval "$SETUP"
exec chroot . setpriv --reuid "$user" --regid "$user" --init-groups env -i PATH=/usr/local/bin:/usr/bin:/bin:/usr/sbin:/sbin HOME="/home/$user" $LOCALE \
    bash -c "cd \"/\$1\"; TIMEFORMAT=\"after %R s\"; time { $TYPED; }" typed "$clone"
'

# trial NAME USER WHAT IS TYPED, with SETUP, LOCALE and SPACES: prints the exit status, what was said at the end, and the seconds.
trial() {
    local name=$1 user=$2 typed=$3 status=0 machine
    machine=$(mktemp --directory --tmpdir="$room" "$name-XXXXXX")
    env repository="$repository" room="$room" kit="$kit" machine="$machine" user="$user" TYPED="$typed" SETUP="${SETUP:-}" LOCALE="${LOCALE:-}" \
        unshare --mount --pid --fork --kill-child ${SPACES:-} bash -c "$INSIDE" > "$room/$name.said" 2>&1 < /dev/null || status=$?
    echo "==== $name, as $user: status $status"
    tail -n "${LINES_SHOWN:-4}" "$room/$name.said"
    rm -rf --one-file-system "$machine"
}

# Everything goes well, in a folder of a name with a space, and in other locales; two at once take one compilation.
root() { LOCALE='LC_ALL=POSIX' trial root root ./try; }
able() { LOCALE='LANG=de_DE.ISO-8859-1 LANGUAGE=de' LINES_SHOWN=8 trial able able './try & ./try; first=$?; wait $! && exit $first'; }
# Everything is said at once.
plain() { trial plain plain ./try; }
no_sudo() { SETUP='rm usr/bin/sudo' trial no_sudo able ./test; }
offline() { SPACES=--net trial offline root ./try; }
offline_test() { SPACES=--net trial offline_test able ./test; }
no_names() { SETUP='echo nameserver 192.0.2.1 > etc/resolv.conf' trial no_names root ./try; }
no_kit() { SETUP='rm usr/local/bin/rt' trial no_kit root ./try; }
no_apt() { SETUP='rm usr/bin/apt-get' trial no_apt root ./try; }
read_only() { SETUP='chroot . chown -R root "/$clone"' trial read_only plain ./try; }
no_room() { SETUP='mount -t tmpfs -o size=1g tmpfs tmp' trial no_room root ./try; }
# Control C on a terminal, while the program is compiled, leaves no process, and no file but what is kept for the next time.
control_c() {
    LINES_SHOWN=12 trial control_c root '(until ls -d bin/unproved-* > /dev/null 2>&1; do sleep 1; done; sleep 20; printf "\\003"; sleep 9) |
        script --quiet --return --command ./try /dev/null; echo "status $?"; ls -A /tmp bin; cut -d" " -f 2,3 /proc/[0-9]*/stat'
}

make_root
for name in "${@:-}"; do
    for one in ${name:-plain no_sudo offline offline_test no_names no_kit no_apt read_only no_room control_c root able}; do "$one"; done
done
