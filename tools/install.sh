# Read by ../presolve for --install DIR: puts what a user needs without the sources into DIR.
install_into() { # DIR
    [ "$installed" = no ] || die 3 "this is an installed program: install from the sources"
    find_program && [ "$kind" = proved ] || build_proved
    library=$root/target/staticlib/libpresolve_c.a
    if [ ! -f "$library" ] || [ -n "$(find "$root/crates" -name out -prune -o -name '*.rt' -newer "$library" -print | head -n 1)" ]; then
        command -v rt >/dev/null || die 3 "rt is not on the PATH: it is in the folder bin of the Rattle kit"
        locked
        say "proving and building the library, which takes a minute after the program. What rt says is in target/presolve-library.log"
        start "$root/target/presolve-library.log" "$root/tools/staticlib" presolve_c
        finished || { release; die 3 "no library: $root/target/presolve-library.log says why"; }
        release
    fi
    find_program
    mkdir -p "$1" 2>/dev/null && to=$(cd -- "$1" && pwd -P) && put_files "$to" 2>/dev/null || die 74 "$1: cannot be written"
    say "installed: $to/bin/presolve. Its folder belongs on the PATH; PKG_CONFIG_PATH=$to/lib/pkgconfig finds the library"
}

put_files() { # DIR
    at=$1/libexec/presolve
    mkdir -p "$1/bin" "$at/command" "$1/include" "$1/lib/pkgconfig" "$1/share/man/man1" "$1/share/doc/presolve" &&
        cp "$root/presolve" "$1/bin/presolve" && chmod 755 "$1/bin/presolve" &&
        (cd "$(dirname "$program")" && cp $(programs) "$at/" && cd "$at" && chmod 755 $(programs)) &&
        cp "$root/tools/build.sh" "$root/tools/install.sh" "$root/tools/model.py" "$root/tools/refusals.txt" "$at/" &&
        cp "$root"/tools/command/*.py "$at/command/" &&
        versions | sed '/^program /d' >"$at/versions" &&
        cp "$root"/include/* "$1/include/" &&
        cp "$library" "$1/lib/libpresolve_c.a" &&
        cp "$root/docs/presolve.1" "$1/share/man/man1/presolve.1" &&
        cp "$root/NOTICE" "$root/docs/FILE.md" "$root/docs/COUNTS.md" "$root/docs/GUIDE.md" "$1/share/doc/presolve/" &&
        cat >"$1/lib/pkgconfig/presolve.pc" <<END
prefix=\${pcfiledir}/../..

Name: presolve
Description: Presolve of a linear or integer model, proved
Version: $(cat "$root/VERSION")
Cflags: -I\${prefix}/include
Libs: -L\${prefix}/lib -lpresolve_c
END
}
