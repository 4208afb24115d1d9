#!/usr/bin/env bash
# Two runs on one directory at once. The first gets its script through a pipe: its device is open and mounted, and it
# waits for lines, while other commands are tried on the directory. Each of these ends with status 5 and leaves all files
# as they are, and the first run goes on as if nothing had been.
# shellcheck source=examples/folder.bash
source "$(dirname "$0")/folder.bash"

# The checksum of each file of the device.
checksums() { (cd disk && sha256sum -- *); }

mkdir disk
zonefs add disk capacity_blocks=12 zone_blocks=4 conv_zones=1
zonefs mkfs disk
zonefs run disk -o errors=repair <<'END'
open 0 seq/0 rw
write 0 0 61*4096
END

# The first run mounts as it begins. Its reply to that says that the device is open.
mkfifo script replies
"$program" run disk -o errors=repair <script >replies &
exec 3>script 4<replies
read -r -t 100 reply <&4
echo "the first run: $reply"

before=$(checksums)
zonefs run disk -o errors=repair <<'END'
open 0 seq/1 rw
write 0 0 62*4096
END
zonefs mkfs disk -f
zonefs add disk capacity_blocks=12 zone_blocks=4 conv_zones=1
after=$(checksums)
if [ "$before" = "$after" ]; then echo "all files are as they were"; else diff <(echo "$before") <(echo "$after"); fi

printf '%s\n' 'open 0 seq/0 rw' 'write 0 4096 63*4096' 'stat seq/0' 'stat seq/1' >&3
exec 3>&-
echo "the first run:"
cat <&4
wait $!
echo "exit status $?"

# The directory is free.
zonefs run disk -o errors=repair <<'END'
open 0 seq/0 r
read 0 0 16384
END
