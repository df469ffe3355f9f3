#!/usr/bin/env bash
# Says in one line what would keep ./try or ./test from its end, and installs what they need from Debian's packages, as root or by sudo:
# scripts/setup.sh [try|test]. It may be run again. scripts/setup.sh memory prints how many GB of memory are free.
set -euo pipefail
export LC_ALL=C.UTF-8 LANGUAGE=
cd "$(dirname "$0")/.."

# The GB that it takes, of memory and on the disks. While it makes machine code, the compiler takes 8 GB of memory; a proof takes
# 2 or 3, the largest 5.7, and as many run as there are processors, or as RT_JOBS says.
what=${1:-test} memory=9 disk=8 jobs=${RT_JOBS:-$(nproc)}
packages=(python3 make openssl certbot python3-acme python3-josepy python3-cryptography python3-dnspython curl)
case $what in
    try) disk=2 ;;
    test)
        [ "$jobs" -le 2 ] || memory=$((6 + 5 * (jobs - 1) / 2))
        packages+=(git gcc libc6-dev libsqlite3-dev sqlite3 valgrind systemd iproute2)
        ;;
    memory) ;;
    *) echo 'scripts/setup.sh [try|test|memory]' >&2; exit 2 ;;
esac

fail() {
    echo "desk: $*" >&2
    exit 1
}

# The memory of the machine in GB, or what is free of it, below the limit of the control group, of either version.
memory() {
    local found folder limit held cached fields='Total|SwapTotal'
    [ "$1" = all ] || fields='Available|SwapFree'
    found=$(awk "/^(Mem|)($fields):/ {sum += \$2} END {printf \"%.0f\", sum * 1024}" /proc/meminfo)
    for folder in /sys/fs/cgroup /sys/fs/cgroup/memory; do
        limit=$(cat "$folder"/memory.max "$folder"/memory.limit_in_bytes 2>/dev/null) || true
        [[ $limit =~ ^[0-9]+$ ]] || continue
        held=$(cat "$folder"/memory.current "$folder"/memory.usage_in_bytes 2>/dev/null) || true
        cached=$(awk '$1 == "inactive_file" {print $2}' "$folder/memory.stat")
        [ "$1" = all ] || limit=$((limit - held + cached))
        [ "$limit" -ge "$found" ] || found=$limit
    done
    echo $((found / 1000000000))
}

room_at() {
    echo $(($(df --output=avail --block-size=1MB "$1" | tail -1) / 1000))
}

look() {
    local folder fewer
    command -v rt >/dev/null ||
        fail 'rt is not on PATH: this repository wants the Rattle kit, rattle-kit-13b or 13f; link its bin/rt as /usr/local/bin/rt'
    for folder in . bin crates .git crates/*; do
        [ ! -e "$folder" ] || [ -w "$folder" ] || fail "$(realpath "$folder") can't be written: make a clone of your own, on a disk that can"
    done
    [ "$what" = try ] || fewer=', or let fewer proofs run at a time (RT_JOBS=1 ./test)'
    [ "$(memory all)" -ge "$memory" ] || fail "$(memory all) GB of memory are here, and ./$what takes $memory: take a larger machine${fewer:-}"
    [ "$(memory free)" -ge "$memory" ] ||
        echo "Of memory $(memory free) GB are free now, and ./$what takes $memory at its most: end other programs${fewer:-}." >&2
    for folder in . "${TMPDIR:-/tmp}"; do
        [ "$(room_at "$folder")" -ge "$disk" ] || fail "$(room_at "$folder") GB are free at $(realpath "$folder"), and ./$what takes $disk: make room there"
    done
}

# Says the packages that are missing.
missing() {
    dpkg-query --show --showformat='${db:Status-Status} ${Package}\n' "${packages[@]}" 2>/dev/null | sed -n 's/^installed //p' | sort -u |
        comm -13 - <(printf '%s\n' "${packages[@]}" | sort)
}

# Runs apt-get as root, with what it says in the log; while another has its lock, it is tried again.
apt() {
    local tries=0
    until "${as_root[@]}" env DEBIAN_FRONTEND=noninteractive apt-get --quiet --yes --option Acquire::Retries=1 \
        --option Acquire::http::Timeout=15 --option DPkg::Lock::Timeout=600 "$@" > "$log" 2>&1 < /dev/null 9>&-; do
        grep --quiet 'Could not get lock' "$log" && [ "$tries" -lt 60 ] || return 1
        [ "$tries" != 0 ] || echo 'Another apt-get runs here; this one waits for it, at most five minutes.'
        tries=$((tries + 1))
        sleep 5
    done
}

# Whether a mirror of apt-get's has an address, or it needs none.
reaches_a_mirror() {
    local mirror mirrors
    mapfile -t mirrors < <(apt-get --print-uris update 2>/dev/null | sed -n "s|^'https\?://\([^/:']*\).*|\1|p" | sort -u)
    [ -n "${mirrors[*]}" ] && [ -z "$(apt-config dump Acquire::http::Proxy)${http_proxy:-}${https_proxy:-}" ] || return 0
    for mirror in "${mirrors[@]}"; do
        ! timeout 5 getent ahosts "$mirror" > /dev/null || return 0
    done
    return 1
}

install() {
    local as_root=() log
    command -v apt-get >/dev/null || fail "there is no apt-get: install these packages of Debian 12 by hand: $*"
    if [ "$(id -u)" != 0 ]; then
        command -v sudo >/dev/null || fail "neither root nor sudo: as root, type: apt-get install $*"
        if [ -t 0 ]; then sudo true; else sudo --non-interactive true 2>/dev/null; fi ||
            fail "sudo does not let $(id -un) in: as root, type: apt-get install $*"
        as_root=(sudo)
    fi
    reaches_a_mirror || fail "no network for apt-get, which finds none of its mirrors: with one, type it again; it installs $*"
    log=$(mktemp --tmpdir desk-apt-XXXXXX)
    echo "Installing by apt-get: $*."
    while sleep 20 > /dev/null 2>&1; do echo "... $SECONDS s, apt-get: $(tail -n 1 "$log" | cut -c 1-90)"; done 9>&- &
    trap "kill $!" EXIT
    apt update && apt install --no-install-recommends "$@" || fail "apt-get failed: is there a network? $log has what it said: $(grep '^E:' "$log" | head -1)"
    rm -f "$log"
}

if [ "$what" = memory ]; then memory free; exit; fi
look
mkdir -p bin
exec 9> bin/setup.lock
flock --nonblock 9 || { echo 'Another run sets up what is missing; this one waits for it.' && flock 9; }
mapfile -t lacking < <(missing)
[ "${#lacking[@]}" = 0 ] || install "${lacking[@]}"
[ "$what" = try ] || git rev-parse --quiet --verify HEAD > /dev/null 2>&1 ||
    fail "git can't read $PWD: own it, or type: git config --global --add safe.directory '$PWD'"
