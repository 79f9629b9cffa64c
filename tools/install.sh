#!/bin/sh
# Puts the proved programs and their manual pages into a prefix: PREFIX/bin and PREFIX/share/man/man1.
#
#     tools/install.sh PREFIX
#
# `rt ci` builds the programs. Where one was not built nothing is put anywhere. The status is 0 where all was put, 1 where
# something was not built or could not be put, 2 for faulty words.
set -u
top=$(cd "$(dirname "$0")/.." && pwd) || exit 1

# What is put, from the top of the repository: the file, its mode, and the folder under the prefix.
files="crates/ucode/out/ucode 755 bin
crates/ucode_live/out/ucode_live 755 bin
docs/ucode.1 644 share/man/man1
docs/ucode_live.1 644 share/man/man1"

case ${1-} in
    '' | -*) words=faulty ;;
    *) words=sound ;;
esac
if [ "$#" -ne 1 ] || [ "$words" = faulty ]; then
    echo "install.sh: state one folder to install into: tools/install.sh PREFIX" >&2
    exit 2
fi
for program in ucode ucode_live; do
    if [ ! -x "$top/crates/$program/out/$program" ]; then
        echo "install.sh: $program is not built; run 'rt ci' at the top of the repository first" >&2
        exit 1
    fi
done

# Each file comes under a name of its own first and takes its name as a whole, so that one which is in use stays whole.
echo "$files" | while read -r file mode folder; do
    put=$1/$folder/$(basename "$file")
    mkdir -p "$1/$folder" && cp "$top/$file" "$put.new" && chmod "$mode" "$put.new" && mv -f "$put.new" "$put" || exit 1
done || {
    echo "install.sh: not all was put into $1" >&2
    exit 1
}
