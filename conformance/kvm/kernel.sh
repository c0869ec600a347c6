# shellcheck shell=sh disable=SC2154
# A Debian kernel for a virtual machine: sourced by conformance/kvm/run, conformance/guest/run, conformance/guest/xen and
# tests/kvm/linux, which set $name (of the script, for its lines), $kernel (6.1 or 6.12) and $work (a folder), and may
# set $flavour: that for cloud machines cannot be the first domain of Xen.
flavour=${flavour:-cloud-amd64}
cache=${XDG_CACHE_HOME:-$HOME/.cache}/synicboard

missing() {
    echo "$name: not tried: $1"
    exit 77
}

# The tools that are needed, each with the package that has it.
need() {
    absent=
    for pair in "$@"; do
        command -v "${pair%%=*}" > /dev/null || absent="$absent ${pair#*=}"
    done
    [ -z "$absent" ] || missing "apt-get install --no-install-recommends$absent"
}

# The newest kernel of this series that the package index has: the package and its version. Earlier ones stop at a
# deadline of a timer beyond 64 bits.
find_kernel() {
    case $kernel in
    6.1) least=6.1.190 ;;
    6.12) least=6.12.111 ;;
    esac
    package=$(apt-cache pkgnames "linux-image-$kernel." | grep -E '^linux-image-[0-9.]+(-[0-9]+|\+deb[0-9]+)?-'"$flavour"'$' | sort -V | tail -n 1)
    [ -n "$package" ] || missing "the package index has no kernel $kernel $flavour: apt-get update"
    version=$(apt-cache policy "$package" | sed -n 's/^ *Candidate: //p')
    dpkg --compare-versions "$version" ge "$least" || missing "kernel $kernel is $version, and $least is needed: apt-get update"
}

fetch_kernel() {
    find_kernel
    fetch
}

# Fetches $package of $version into the cache as $file, if it is not there as the package index describes it.
fetch() {
    file=$cache/${package}_$(echo "$version" | sed 's/:/%3a/')_amd64.deb
    sum=$(apt-cache show "$package=$version" | sed -n 's/^SHA256: //p' | head -n 1)
    mkdir -p "$cache"
    is_checked() { [ -n "$sum" ] && [ -f "$file" ] && echo "$sum  $file" | sha256sum -c --status; }
    is_checked || (cd "$cache" && rm -f "$file" && apt-get download -q "$package=$version" > "$work/fetched" 2>&1) || true
    is_checked || missing "$package could not be fetched"
}

# The kernel and its modules, in $work. A module is a file, compressed or not.
unpack_kernel() {
    mkdir -p "$work/kernel"
    dpkg-deb --fsys-tarfile "$file" | tar -x -C "$work/kernel" --wildcards './boot/vmlinuz-*' '*/kernel/arch/x86/kvm/*' \
        '*/virt/lib/irqbypass*' '*/kernel/drivers/hv/*'
    mv "$work"/kernel/boot/vmlinuz-* "$work/vmlinuz"
}

unpack_module() {
    found=$(find "$work/kernel" -name "$1.ko*")
    case $found in
    *.xz) xz -dc "$found" ;;
    *) cat "$found" ;;
    esac > "$2"
}
