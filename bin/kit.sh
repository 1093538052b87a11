# For the commands in this folder, which source it: where the kit is, and a checksum of all that is proved.
# It needs `top`, the project's folder, and `fail`; it sets `home`, the kit's folder.
# shellcheck shell=bash disable=SC2154

# The kit is where rt finds it. Its toolchain is for one kind of machine, that of the loader in it.
if [ -n "${RATTLE_HOME:-}" ]; then
    home=$(readlink -f "$RATTLE_HOME")
elif rt=$(command -v rt); then
    home=$(dirname "$(dirname "$(readlink -f "$rt")")")
else
    fail 'there is no Rattle kit: put its rt on the path, or set RATTLE_HOME to its folder'
fi
if [ ! -x "$home/bin/rt" ] || ! compgen -G "$home/toolchain/lib/ld-linux-$(uname -m | tr _ -).so.*" >/dev/null; then
    fail "there is no Rattle kit for this machine, $(uname -m), at $home"
fi

# A checksum of the kit's name and of all that is proved. Times would not do: a checkout can set them back, and a file that was
# deleted has none. What rt leaves in a crate's out/ is made from these.
sources() {
    {
        cat "$home/KIT-ID"
        cd "$top" && find crates \( -name must-fail -o -name out \) -prune -o -type f -print0 | LC_ALL=C sort -z | xargs -0 sha256sum crates.txt
    } | sha256sum
}
