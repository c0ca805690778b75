# What lies in a package beside its programs. tools/deb reads this, and begins a package first.

# A manual page, which calls both programs as the package does.
manual() { # name
    local page="$root/usr/share/man/man1/seldomplough-$1.1"
    sed -e 's/^\(\.Nm\|\.Xr\) \(receiver\|pack\)\b/\1 seldomplough-\2/' \
        -e 's/^\.Dt /&SELDOMPLOUGH-/' \
        -e '/^\.Dl/s/\(^\.Dl \|| \)\(receiver\|pack\) /\1seldomplough-\2 /' \
        "$top/docs/$1.1" > "$page"
    gzip -9n "$page"
}

# The companion: its modules among Python's own, and what starts it.
add_companion() {
    mkdir -p "$packages"
    cp -r "$top/python/seldomplough" "$packages"
    find "$packages" -name __pycache__ -prune -exec rm -r {} +
    # Where something of a checkout gave it other modes, as a program that others can change.
    find "$packages" -type f -exec chmod 644 {} +
    install "$top/tools/package/seldomplough" "$root/usr/bin/seldomplough"
}

# What bash, zsh and fish complete after each command, by its help.
add_completions() {
    local shell name folder file program
    for shell in bash zsh fish; do
        case $shell in
        bash) folder=bash-completion/completions ;;
        zsh) folder=zsh/vendor-completions ;;
        fish) folder=fish/vendor_completions.d ;;
        esac
        mkdir -p "$root/usr/share/$folder"
        for name in seldomplough-receiver seldomplough-pack seldomplough; do
            file="$name"
            [[ $shell != zsh ]] || file="_$name"
            [[ $shell != fish ]] || file="$name.fish"
            program=("${by[@]}" "$root/usr/bin/$name")
            [[ $name != seldomplough ]] || program=("$packages")
            python3 "$top/tools/package/completions.py" "$shell" "$name" "${program[@]}" \
                > "$root/usr/share/$folder/$file"
        done
    done
}

# The docs, licences and examples.
add_docs() {
    local name version="$1"
    mkdir -p "$docs" "$root/usr/share/man/man1"
    manual receiver
    manual pack
    python3 "$top/tools/package/manual.py" "$packages" > "$root/usr/share/man/man1/seldomplough.1"
    gzip -9n "$root/usr/share/man/man1/seldomplough.1"
    cp "$top/README.md" "$top/CHANGELOG.md" "$docs"
    mkdir "$docs/docs" "$docs/python"
    cp "$top/python/README.md" "$docs/python"
    cp -r "$top"/docs/*.md "$top/docs/pictures" "$docs/docs"
    cp -r "$top/examples" "$docs"
    python3 "$top/tools/package/pages.py" "$docs"
    # The commands of the pages, as they stand there.
    for name in receiver pack; do
        ln -s "../../../bin/seldomplough-$name" "$docs/$name"
    done
    ln -s ../../../bin/seldomplough "$docs/seldomplough"
    { cat "$top/tools/package/copyright"
      tail -n +5 "$top/LICENSE-MIT" | sed 's/^$/./; s/^/ /'; } > "$docs/copyright"
    printf '%s (%s) unstable; urgency=medium\n\n  * See CHANGELOG.md.\n\n -- %s  %s\n' \
        "$called" "$version" "$maintainer" "$date" > "$docs/changelog"
    gzip -9n "$docs/changelog"
}
