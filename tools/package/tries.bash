# Tries a package that is made. tools/deb reads this.

# Unpacks the package and runs the quick start there, which has to give its lines.
try_quick_start() { # package
    mkdir -p "$work/unpacked"
    dpkg-deb -x "$1" "$work/unpacked/$called"
    local linked="$work/unpacked/$called/usr/share/doc/$called/receiver"
    local examples="${linked%/*}/examples"
    "${by[@]}" "$work/unpacked/$called/usr/bin/seldomplough-receiver" --offset 511500 \
        "$examples/real_message.script" < "$examples/real_message.real1" > "$work/lines"
    cmp "$examples/real_message.expected" "$work/lines"
    "${by[@]}" "$work/unpacked/$called/usr/bin/seldomplough-pack" --version > /dev/null
    [[ "$("${by[@]}" "$linked" --version)" == "receiver $version" ]] \
        || fail 'the link beside the pages starts another program'
    echo 'deb: the quick start gives its lines from the unpacked package'
}

# Sees that the companion of the unpacked package finds the programs of the package in the PATH.
try_companion() {
    local usr="$work/unpacked/$called/usr" found name
    local bin="$usr/bin"
    export PYTHONPATH="$usr/lib/python3/dist-packages" PYTHONDONTWRITEBYTECODE=1
    "$bin/seldomplough" --help > /dev/null
    for name in receiver pack; do
        found="$(PATH="$bin:$PATH" /usr/bin/python3 -c "import sys
from seldomplough.programs import find
print(find(sys.argv[1]).path)" "$name")"
        [[ "$found" == "$bin/seldomplough-$name" ]] || fail "the companion finds another $name"
    done
    unset PYTHONPATH PYTHONDONTWRITEBYTECODE
    echo 'deb: the companion finds the programs of the unpacked package'
}

# Has lintian look at a package. It leaves files in TMPDIR. Whether mail gets to the maintainer is
# no matter of the package, proved programs stay as `rt` built them, and those that are built for
# another architecture need no library.
look_at() { # package
    local passed=bogus-mail-host,bogus-mail-host-in-debian-changelog
    [[ "$called" == seldomplough ]] || passed+=,unstripped-binary-or-object
    [[ "$architecture" == "$own" ]] || passed+=,statically-linked-binary
    if command -v lintian > /dev/null; then
        TMPDIR="$work" lintian --fail-on error --suppress-tags "$passed" "$1" \
            || fail 'lintian has an error'
        echo 'deb: lintian has no error'
    else
        echo 'deb: there is no lintian, so the package was not looked at'
    fi
}
