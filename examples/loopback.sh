#!/bin/sh
# A copy of 1 MiB between two servers on ports of this machine, over volumes in files of a folder that is made for it and removed. It needs
# nothing but the program and Python: bench/file.py is the client that writes the file at the source and reads it back at the
# destination. It takes some seconds once the program is built.
set -eu
top=$(cd "$(dirname "$0")/.." && pwd)
nfscopy=$top/nfscopy
folder=$(mktemp -d)
trap 'rm -rf "$folder"' EXIT
cd "$folder"

# Two principals and their keys: who copies, and the destination when it calls the source.
printf 'user %064d\ndest %064d\n' 1 2 > realm.txt
head -c 1048576 /dev/urandom > bytes

"$nfscopy" format source 1 256 7            # a volume of one file of 256 blocks of 4,096 bytes
"$nfscopy" format dest 1 256 9

# The source on port 24051 for six connections: the one that writes the file, those of four workers, and that of the copy.
"$nfscopy" serve-source source 24051 6 &
sleep 1
python3 "$top/bench/file.py" put 24051 < bytes

# The destination on port 24052 for two connections, with four workers, which fetch from port 24051.
"$nfscopy" serve-dest dest 24052 2 4 24051 &
sleep 1

# All bytes of file 1, to file 1, whatever the order in which they land.
"$nfscopy" copy 24051 24052 1 0 1 0 1048576 n

python3 "$top/bench/file.py" get 24052 1048576 > back
wait
cmp bytes back && echo "the destination has the source's bytes"
