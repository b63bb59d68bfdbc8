# What the scripts of speed/ share; each reads it with `. speed/tools.sh` from the top of the repository. Sets out (where all that is built
# stands), machine, target, kit and clang (the toolchain's, which has the LLVM of rustc).
out=target/speed machine=$(uname -m)
target=$machine-unknown-linux-gnu
mkdir -p $out

# needs COMMAND..: each must be there.
needs() {
    for word in "$@"; do
        command -v "$word" > /dev/null || { echo "$0: it needs $word, which is not here" >&2; exit 2; }
    done
}

needs rt
kit=$(dirname "$(rt doc)")
tools=$kit/toolchain
clang=${CLANG:-$tools/bin/clang}
[ -x "$clang" ] || { echo "$0: the toolchain at $kit is not for this processor, $machine" >&2; exit 2; }

# proved CRATE: proves it, and sets lib to its archive for this processor and lib_x86 to the one for x86-64. The toolchain compiles for x86-64
# alone; on another processor the LLVM module that it compiled is compiled again for this one, with the same switches.
proved() {
    lib_x86=crates/$1/out/lib$1.a lib=$out/lib$1.a
    if [ "$machine" = x86_64 ]; then
        lib=$lib_x86
        (cd crates/"$1" && rt lib) > $out/"$1".log 2>&1 || { cat $out/"$1".log; exit 1; }
        return
    fi
    mirror
    rm -f $out/kept/*.bc
    (cd crates/"$1" && RATTLE_HOME=$OLDPWD/$out/mirror rt lib) > $out/"$1".log 2>&1 || { cat $out/"$1".log; exit 1; }
    again "$(ls $out/kept/*.bc)" $out/$1
    rm -f $lib
    "$tools/bin/llvm-ar" rcs $lib $out/$1.o
}

# A mirror of the toolchain, all symbolic links, but its clang is a script that keeps each module it is handed in $out/kept.
mirror() {
    rm -rf $out/mirror $out/kept
    mkdir -p $out/mirror/on/"$machine"/toolchain/bin $out/kept
    links "$kit" $out/mirror on
    links "$kit/on/$machine" $out/mirror/on/"$machine" toolchain
    links "$tools" $out/mirror/on/"$machine"/toolchain bin
    links "$tools/bin" $out/mirror/on/"$machine"/toolchain/bin clang
    keeper=$out/mirror/on/$machine/toolchain/bin/clang
    cat > "$keeper" << END
#!/bin/sh
for word in "\$@"; do
    case \$word in *.bc) cp "\$word" "$PWD/$out/kept/\$(date +%s%N).bc" ;; esac
done
exec "$clang" "\$@"
END
    chmod +x "$keeper"
}

# links FROM TO BUT: a link in TO to each thing in FROM but one.
links() {
    for thing in "$1"/*; do
        [ "$(basename "$thing")" = "$3" ] || ln -s "$thing" "$2/"
    done
}

# again MODULE OUT: OUT.o of the kept module, for this processor. What names x86-64 in its text is the layout, the triple and the processor.
again() {
    "$clang" --target=x86_64-unknown-linux-gnu -x ir "$1" -O0 -Xclang -disable-llvm-passes -S -emit-llvm -o "$2.ll"
    sed -i -e '/^target datalayout/d' -e "s/^target triple.*/target triple = \"$target\"/" -e 's/"target-cpu"="x86-64"//' "$2.ll"
    "$clang" --target="$target" -Wno-override-module -ffunction-sections -fdata-sections -fPIC -O3 -Xclang -fmerge-functions \
        -mllvm -mergefunc-use-aliases -mllvm -trap-unreachable -mllvm -no-trap-after-noreturn -c -x ir "$2.ll" -o "$2.o"
}
