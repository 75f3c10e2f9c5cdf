# The checks of a release, which check.sh takes in. A release is made twice, its packages are unpacked into empty folders, and programs are
# built over each by what pkg-config, CMake and Cargo say. The toolchain isn't in their PATH.
# shellcheck shell=sh
# What is here is given to check, and its words are those of check.sh.
# shellcheck disable=SC2317,SC2154

# make_release FOLDER
make_release() {
    ARCHIVE=$ARCHIVE PIPERUN=$piperun "$here/release" "$1"
}

# Whether a release that is made again, elsewhere and for another user, has the same bytes.
makes_the_same_again() {
    mkdir "$work/elsewhere"
    (umask 077 && export TMPDIR="$work/elsewhere" TZ=Asia/Tokyo && make_release "$work/again") || return 1
    diff -r "$work/packages" "$work/again"
}

# sums_hold FOLDER: whether FOLDER/SHA256SUMS lists each file below the folder once, with its checksum.
sums_hold() {
    (
        cd "$1" || exit 1
        sha256sum --strict --quiet -c SHA256SUMS || exit 1
        find . -type f ! -path ./SHA256SUMS | sed 's|^\./||' | sort > "$work/files"
        sed 's/^[0-9a-f]*  //' SHA256SUMS | sort | diff - "$work/files"
    )
}

# Whether all that the packages have belongs to root, and nobody else may write to it.
belongs_to_root() {
    {
        tar --numeric-owner -tvzf "$tarball"
        for package in "$work"/packages/*.deb; do
            [ ! -f "$package" ] || dpkg-deb --fsys-tarfile "$package" | tar --numeric-owner -tv
        done
    } > "$work/entries"
    # of a link the mode means nothing
    [ -s "$work/entries" ] && ! grep -Ev '^([d-]rw[x-]r-[x-]r-[x-]|lrwxrwxrwx) 0/0 ' "$work/entries"
}

# hide_toolchain: makes $without_toolchain, a PATH which has all programs of this one's except rt and rattle.
hide_toolchain() {
    without_toolchain=
    rest=$PATH:
    while [ -n "$rest" ]; do
        folder=${rest%%:*}
        rest=${rest#*:}
        if [ -e "$folder/rt" ] || [ -e "$folder/rattle" ]; then
            hidden=$(mktemp -d "$work/programs.XXXXXX")
            for program in "$folder"/*; do
                case ${program##*/} in rt | rattle) ;; *) ln -s "$program" "$hidden" ;; esac
            done
            folder=$hidden
        fi
        without_toolchain=${without_toolchain:+$without_toolchain:}$folder
    done
    ! (PATH=$without_toolchain && command -v rt)
}

# The functions below look at one package, which is unpacked: $prefix is what stands for /usr, and $lib the folder of the library.

# Whether the shared library exports the functions of the header and nothing else, and is named as the link that programs look for.
exports_what_is_declared() {
    sed -n 's/^[a-z0-9_]* \(bindingclay_[a-z0-9_]*\)(.*/\1/p' "$prefix/include/bindingclay.h" | sort > "$work/declared"
    nm -D --defined-only "$lib/libbindingclay.so" | awk '{ print $NF }' | sort | diff "$work/declared" - || return 1
    soname=$(objdump -p "$lib/libbindingclay.so" | awk '$1 == "SONAME" { print $2 }')
    [ -s "$work/declared" ] && [ "$soname" = "$(readlink "$lib/libbindingclay.so")" ]
}

# build_packaged NAME SOURCE PACKAGE: builds a program in C by what pkg-config says of a package.
build_packaged() {
    flags=$(PKG_CONFIG_LIBDIR=$lib/pkgconfig pkg-config ${of_package:+"$of_package"} --cflags --libs "$3") || return 1
    # pkg-config quotes what it prints for a shell
    eval "set -- \"\$1\" \"\$2\" $flags"
    built=$work/$1
    source=$2
    shift 2
    PATH=$without_toolchain "$cc" -Wall -Wextra -Werror -std=c11 -o "$built" "$source" "$@"
}

# needs_shared PROGRAM
needs_shared() {
    objdump -p "$1" | grep -q 'NEEDED *libbindingclay\.so'
}

# prints_example COMMAND..: whether a program over the library prints what the example does.
prints_example() {
    PATH=$without_toolchain "$@" > "$work/printed" && printf 'the child read hello\nand then 0 bytes\n' | diff - "$work/printed"
}

example_of_archive() {
    build_packaged example "$here/example.c" bindingclay-static || return 1
    ! needs_shared "$work/example" && prints_example "$work/example"
}

loop_of_archive() {
    build_packaged example_loop "$prefix/share/bindingclay/examples/example_loop.c" bindingclay-static || return 1
    loop_prints_what_it_should "$work/example_loop"
}

example_of_shared() {
    build_packaged example "$here/example.c" bindingclay || return 1
    needs_shared "$work/example" && prints_example env "LD_LIBRARY_PATH=$lib" "$work/example"
}

example_under_valgrind() {
    prints_example env "LD_LIBRARY_PATH=$lib" "$valgrind" -q --error-exitcode=99 --leak-check=full --show-leak-kinds=all \
        --errors-for-leak-kinds=all "$work/example"
}

# Whether the header, the library, pkg-config and the crate name the version of the package.
versions_agree() {
    for package in bindingclay bindingclay-static; do
        [ "$(PKG_CONFIG_LIBDIR=$lib/pkgconfig pkg-config --modversion "$package")" = "$version" ] || return 1
        build_packaged version "$here/tests/version.c" "$package" || return 1
        [ "$(LD_LIBRARY_PATH=$lib "$work/version")" = "$version" ] || return 1
    done
    grep -qx "version = \"$version\"" "$prefix/share/bindingclay/rust/Cargo.toml"
}

examples_by_cmake() {
    first=${version%%.*}
    second=${version#*.}
    second=${second%%.*}
    others="$first.$((second + 1));$((first + 1)).0"
    [ "$first" -ne 0 ] || [ "$second" -eq 0 ] || others="$others;0.$((second - 1))"
    rm -rf "$work/cmake"
    PATH=$without_toolchain cmake -S "$here/tests/cmake" -B "$work/cmake" "-DCMAKE_PREFIX_PATH=$prefix" \
        -DCMAKE_LIBRARY_ARCHITECTURE=x86_64-linux-gnu "-DVERSION=$version" "-DOTHERS=$others" || return 1
    PATH=$without_toolchain cmake --build "$work/cmake" || return 1
    ! needs_shared "$work/cmake/example-static" && needs_shared "$work/cmake/example-shared" &&
        prints_example "$work/cmake/example-static" && prints_example "$work/cmake/example-shared"
}

example_by_cargo() {
    rm -rf "$work/crate"
    mkdir -p "$work/crate/src"
    cp "$prefix/share/bindingclay/rust/examples/pipe.rs" "$work/crate/src/main.rs"
    printf '%s\n' '[package]' 'name = "example"' 'version = "0.1.0"' 'edition = "2021"' '' '[dependencies]' \
        "bindingclay-c = { path = \"$prefix/share/bindingclay/rust\" }" > "$work/crate/Cargo.toml"
    prints_example env "CARGO_TARGET_DIR=$work/crate/target" RUSTFLAGS='-D warnings' cargo run --quiet --offline \
        --manifest-path "$work/crate/Cargo.toml"
}

# A copy of the crate finds the archive in the folder that is named to it.
example_of_copied_crate() {
    cp -R "$prefix/share/bindingclay/rust" "$work/copied"
    prints_example env "CARGO_TARGET_DIR=$work/crate/target" RUSTFLAGS='-D warnings' "BINDINGCLAY_LIB=$lib" cargo run --quiet --offline \
        --example pipe --manifest-path "$work/copied/Cargo.toml"
}

example_by_rustc() {
    crate=$prefix/share/bindingclay/rust
    PATH=$without_toolchain "$rustc" --edition 2021 -D warnings --crate-type rlib --crate-name bindingclay \
        -o "$work/libbindingclay.rlib" "$crate/bindingclay.rs" || return 1
    PATH=$without_toolchain "$rustc" --edition 2021 -D warnings -o "$work/example" --extern "bindingclay=$work/libbindingclay.rlib" \
        -L "$lib" -l static=bindingclay "$crate/examples/pipe.rs" || return 1
    prints_example "$work/example"
}

# Whether piperun of the package is the one that was tested, and prints what it has to of the example: of this one and of the package's own.
packaged_piperun_answers() {
    cmp "$piperun" "$prefix/bin/piperun" || return 1
    for folder in "$examples" "$prefix/share/bindingclay/examples"; do
        PATH=$without_toolchain "$prefix/bin/piperun" "$folder/session.script" | diff "$folder/session.out" - || return 1
    done
}

# Whether the package has each manual page, which may be compressed.
has_pages() {
    for page in "$here"/man/*.[137]; do
        packaged=$prefix/share/man/man${page##*.}/${page##*/}
        if [ -f "$packaged" ]; then
            cmp "$packaged" "$page" || return 1
        else
            gzip -dc "$packaged.gz" | cmp - "$page" || return 1
        fi
    done
}

# over TOOL LABEL COMMAND..: a check that needs a tool.
over() {
    tool=$1
    label=$2
    shift 2
    if is_there "$tool"; then
        check "$label" "$@"
    else
        echo "passed over: $label"
    fi
}

# try_package PREFIX LIB LABEL: the checks of a package that is unpacked, or of two.
try_package() {
    prefix=$1
    lib=$2
    check "what the shared library of $3 exports" exports_what_is_declared
    over pkg-config "the versions of $3" versions_agree
    over pkg-config "the example over the archive of $3" example_of_archive
    over pkg-config "the loop over the archive of $3" loop_of_archive
    if is_there pkg-config; then
        check "the example over the shared library of $3" example_of_shared &&
            over "$valgrind" "the example over the shared library of $3 under valgrind" example_under_valgrind
    else
        echo "passed over: the example over the shared library of $3"
    fi
    over cmake "the example with CMake over $3" examples_by_cmake
    over cargo "the example with Cargo over $3" example_by_cargo
    over "$rustc" "the example with rustc over $3" example_by_rustc
    check "piperun of $3" packaged_piperun_answers
    check "the manual pages of $3" has_pages
}

unpack_tarball() {
    mkdir "$work/unpacked" && tar -C "$work/unpacked" -xzf "$tarball" && [ -d "$work/unpacked/$name" ]
}

# Both packages go into one folder. They have one version, and no file is in both.
unpack_debs() {
    mkdir "$work/root"
    for package in "bindingclay_${version}_amd64" "libbindingclay-dev_${version}_amd64"; do
        [ "$(dpkg-deb -f "$work/packages/$package.deb" Version)" = "$version" ] || return 1
        dpkg-deb -x "$work/packages/$package.deb" "$work/root" || return 1
        dpkg-deb --fsys-tarfile "$work/packages/$package.deb" | tar -t | grep -v '/$' > "$work/$package"
    done
    sort "$work/bindingclay_${version}_amd64" "$work/libbindingclay-dev_${version}_amd64" > "$work/files"
    (cd "$work/root" && find . ! -type d | sort) | diff - "$work/files"
}

try_release() {
    if grep -a -q 'rustc version' "$ARCHIVE" || [ ! -x "$piperun" ]; then
        echo "passed over: a release, as the toolchain built no archive or no piperun"
        return
    fi
    check "a release" make_release "$work/packages" || return
    check "the same release again" makes_the_same_again
    check "the checksums of a release" sums_hold "$work/packages"
    tarball=$(echo "$work"/packages/*.tar.gz)
    name=$(basename "$tarball" .tar.gz)
    version=${name#bindingclay-}
    version=${version%-x86_64-linux}
    check "the owner of what is in a release" belongs_to_root
    check "hiding the toolchain" hide_toolchain || return
    of_package=
    if check "unpacking the tarball" unpack_tarball; then
        check "the checksums of the tarball" sums_hold "$work/unpacked/$name"
        try_package "$work/unpacked/$name" "$work/unpacked/$name/lib" "the tarball"
        over cargo "the example of a copy of the crate" example_of_copied_crate
    fi
    if is_there dpkg-deb; then
        of_package=--define-variable=prefix=$work/root/usr
        check "unpacking the packages of Debian" unpack_debs &&
            try_package "$work/root/usr" "$work/root/usr/lib/x86_64-linux-gnu" "the packages of Debian"
    else
        echo "passed over: the packages of Debian"
    fi
}
