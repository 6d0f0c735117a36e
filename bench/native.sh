#!/bin/sh
# native.sh ARCHIVE: our library for this processor where that is no x86-64, for the benchmark alone.
# native.sh --program NAME FILE: the same of one of our programs.
#
# The archive that `rt staticlib boundary` writes is for x86-64, and so is what `rt check NAME` makes of a program. This
# runs that command in a copy of the repository, keeps the LLVM module that the kit's clang is handed, and has the same
# clang compile the same module, with the same options, for AArch64. What comes of it is not what is shipped.
#
# It is written for an older kit, which had these commands for Arm; with today's kit it does not run.
#
# In the module only the calls from C have to change. A struct that goes in by value lies on the stack on x86-64
# (byval); on AArch64 the caller makes a copy and hands its address (noalias). Of a struct that comes out, the address
# is the first argument and the answer on x86-64; on AArch64 it is in register x8 and nothing is answered (sret).
set -eu
how=staticlib name=boundary
[ "$1" != --program ] || { how=check && name=$2 && shift 2; }
case $1 in /*) made=$1 ;; *) made=$PWD/$1 ;; esac
machine=$(uname -m)
fault() {
    echo "native.sh: $1" >&2
    exit 1
}
[ "$machine" = aarch64 ] || fault "only for aarch64, and this is $machine"
root=$(cd "$(dirname "$0")/.." && pwd -P)
rt=$(command -v rt) || fault 'rt is not on the path'
kit=${RATTLE_HOME:-$(dirname "$(dirname "$(readlink -f "$rt")")")}
tools=$kit/on/$machine/toolchain

# made before, of the same sources, by the same kit and the same lines?
sources() {
    cat "$kit/KIT-ID" "$root/bench/native.sh" "$root/crates.txt"
    cd "$root/crates"
    find . -path './*/src/*' -type f -exec sha256sum {} + | sort
}
key=$(sources | sha256sum)
if [ -f "$made" ] && [ "$(cat "$made.key" 2>/dev/null)" = "$key" ]; then exit 0; fi

work=$(mktemp -d)
trap 'rm -rf "$work"' EXIT
# rt runs a program as nobody, who has to reach it
chmod 755 "$work"

# links NAME FROM TO: links in TO to all that FROM has, but NAME
links() {
    mkdir -p "$3"
    for path in "$2"/*; do
        [ "${path##*/}" = "$1" ] || ln -s "$path" "$3/"
    done
}

# the kit again, of links, with a clang that keeps the module
own=$work/kit/on/$machine
links on "$kit" "$work/kit"
links toolchain "$kit/on/$machine" "$own"
links bin "$tools" "$own/toolchain"
links clang "$tools/bin" "$own/toolchain/bin"
cat >"$own/toolchain/bin/clang" <<END
#!/bin/sh
for word in "\$@"; do
    case \$word in *.bc) cp "\$word" "$work/module.bc" ;; esac
done
exec "$tools/bin/clang" "\$@"
END
chmod +x "$own/toolchain/bin/clang"

# the repository again, with what is proved already
mkdir -p "$work/repository/target"
cp -R "$root/crates" "$root/crates.txt" "$work/repository/"
for part in rlib stamp; do
    [ ! -d "$root/target/$part" ] || cp -R "$root/target/$part" "$work/repository/target/"
done
cd "$work/repository"
rm -f "target/stamp/$name"
RATTLE_HOME=$work/kit rt "$how" "$name" >"$work/said" 2>&1 || { tail -n 20 "$work/said" >&2 && exit 1; }
cd "$work"
[ -f module.bc ] || fault 'the kit hands its clang no module'

"$tools/bin/clang" --target=x86_64-unknown-linux-gnu -O0 -Xclang -disable-llvm-passes -x ir module.bc \
    -S -emit-llvm -o x86.ll
sed -e 's/^target triple = .*/target triple = "aarch64-unknown-linux-gnu"/' -e '/^target datalayout = /d' \
    -e 's/"target-cpu"="x86-64"/"target-cpu"="generic"/' \
    -e '/^define noundef ptr @rpeltp_/,/^}/{' \
    -e 's/^define noundef ptr \(@[a-z_]*\)(ptr noundef %a0/define void \1(ptr noundef sret(i8) %a0/' \
    -e 's/byval(\[[0-9]* x i8\])/noalias/' -e 's/^  ret ptr %a0$/  ret void/' -e '}' x86.ll >native.ll
if grep -E 'byval|^define [^@]*ptr @rpeltp_|x86' native.ll >&2; then fault 'this of x86-64 is left in the module'; fi
"$tools/bin/clang" --target=aarch64-unknown-linux-gnu -ffunction-sections -fdata-sections -mllvm -trap-unreachable \
    -mllvm -no-trap-after-noreturn --no-default-config -Werror -fPIC -O3 -x ir native.ll -c -o native.o
case $how in
staticlib) "$tools/bin/llvm-ar" rcs made native.o ;;
check) gcc -Wl,--gc-sections -o made native.o ;;
esac
mkdir -p "$(dirname "$made")"
mv made "$made"
echo "$key" >"$made.key"
