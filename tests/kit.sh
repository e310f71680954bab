#!/usr/bin/env bash
# kit.sh CC RUN..: installs the kit into a folder of its own, links the installed examples by the compiler CC with that kit alone,
# and compares what they print under RUN. Header, manual page and archive must have the same calls, the header must compile by
# itself, and uninstalling must take everything away and nothing else.
set -euo pipefail
shopt -s inherit_errexit
export LC_ALL=C
unset MAKEFLAGS # of a make that runs this
cd "$(dirname "$0")/.."
cc=$1 run=("${@:2}")
room=$(mktemp -d)
trap 'rm -rf "$room"' EXIT
kit=$room/kit header=$room/kit/include/ummervia.h page=$room/kit/share/man/man3/ummervia.3
export PKG_CONFIG_PATH=$kit/lib/pkgconfig
count=0 bad=0

# WHAT EXPECTED FOUND: two texts that must be one.
same() {
    count=$((count + 1))
    [[ $2 != "$3" ]] || return 0
    bad=$((bad + 1))
    printf 'kit: wrong: %s\n' "$1"
    diff -a --label expected --label found -u <(echo "$2") <(echo "$3") || true
}

# COMMAND..: what it prints, then its exit status.
told() {
    local status=0
    "$@" 2>&1 || status=$?
    echo "status $status"
}

# HEX: the sheet of these bytes, in a file.
sheet() { printf '%b' "$(sed 's/ //g; s/../\\x&/g' <<<"$1")" >"$room/sheet"; }

# HEX FRAME SUBFRAME SLOT PHCH PLACE STATUS TEXT: what whereis says of a place of the frame that the sheet HEX describes. The sub-frame may be
# empty, and is not asked for then.
whereis_in() {
    sheet "$1"
    same "whereis, sheet $1, frame $2, $3/$4/$5/$6" "$8"$'\n'"status $7" \
        "$(told "${run[@]}" "$room/examples/whereis" "$room/sheet" "$2" $3 "$4" "$5" "$6")"
}

# The same without a sub-frame.
whereis() { whereis_in "$1" "$2" '' "${@:3}"; }

files_in() { find "$1" ! -type d -printf '%P\n' | sort; }

make -s install DESTDIR= PREFIX="$kit"
make -s install DESTDIR="$room/stage" PREFIX=/opt/ummervia

# ---- What is there. The calls are those that the header declares. ----
calls=$(sed -n 's/^uint32_t \(umv_[a-z_]*\)(.*/\1/p' include/ummervia.h | sort)
same 'files' "$(sort <<END
include/ummervia.h
lib/libummervia.a
lib/pkgconfig/ummervia.pc
share/doc/ummervia/PROMISES.md
share/doc/ummervia/SPEED.md
share/doc/ummervia/examples/Makefile
share/doc/ummervia/examples/example.sheet
share/doc/ummervia/examples/gateway.sheet
share/doc/ummervia/examples/lcr.sheet
share/doc/ummervia/examples/levels.c
share/doc/ummervia/examples/picture.sheet
share/doc/ummervia/examples/roundtrip.c
share/doc/ummervia/examples/sizes.c
share/doc/ummervia/examples/whereis.c
share/man/man3/ummervia.3
$(sed 's|.*|share/man/man3/&.3|' <<<"$calls")
END
)" "$(files_in "$kit")"
same 'modes' '' "$(find "$kit" -type f ! -perm 644)"
same 'pages of the calls' '.so man3/ummervia.3' "$(cat "$kit"/share/man/man3/umv_*.3 | uniq)"
same 'DESTDIR: the same files but for the prefix' '' "$(diff -r -x ummervia.pc "$kit" "$room/stage/opt/ummervia" 2>&1)"
same 'DESTDIR: the prefix' 'prefix=/opt/ummervia' "$(head -n 1 "$room/stage/opt/ummervia/lib/pkgconfig/ummervia.pc")"

# ---- Header, manual page and archive say the same. ----
release=$(sed -n 's/^#define UMV_RELEASE "\([0-9.]*\)".*/\1/p' "$header")
same 'release of the pkg-config file' "$release" "$(pkg-config --modversion ummervia)"
same 'release of the manual page' 1 "$(grep -c "^\.TH .*\"Ummervia $release\"" "$page")"
prototypes() { tr -d ' "\n' | sed 's/;/;\n/g' | sort; }
same 'prototypes of the manual page' "$(sed -n '/^uint32_t umv_/{:more; /;$/!{N; b more}; p}' "$header" | prototypes)" \
    "$(sed -n 's/^\.BI //p' "$page" | prototypes)"
same 'names of the manual page' "$calls" "$(sed '1,/^\.SH NAME/d; /^\.SH/,$d' "$page" | grep -o 'umv_[a-z_]*' | sort)"
same 'calls that the manual page describes' "$calls" "$(sed -n 's/^\.BR \(umv_[a-z_]*\) ()$/\1/p' "$page" | sort -u)"
same 'calls with their numbers, calls with their stack' "$(sort <(echo "$calls") <(echo "$calls"))" \
    "$(sed -n 's/^\.B \(umv_[a-z_]*\)$/\1/p' "$page" | sort)"
same 'numbers of the manual page' \
    "$(sed -n '/^enum umv_number/,/^}/s/^ *\(UMV_[A-Z_]*\) = \([0-9]*\).*/\1 \2/p' "$header")" \
    "$(sed -n 's/^\.BR \(UMV_[A-Z_]*\) " (\([0-9]*\))"$/\1 \2/p' "$page")"
nm=$("$cc" -print-prog-name=nm)
same 'symbols of the archive' "$calls" "$("$nm" -g --defined-only "$kit/lib/libummervia.a" | sed -n 's/.* [A-Z] //p' | sort)"
same 'what the archive asks for' $'memcpy\nmemset' "$("$nm" -u "$kit/lib/libummervia.a" | sed -n 's/.* U //p' | sort)"
if command -v groff >/dev/null; then
    same 'warnings about the manual page' '' "$(groff -man -Tutf8 -ww -z "$page" 2>&1)"
else
    echo 'kit: groff is not there: the manual page is not set'
fi

# ---- The header by itself. ----
for standard in c99 c11; do
    same "header as $standard" 'status 0' \
        "$(told "$cc" -std=$standard -Wall -Wextra -pedantic -Werror -fsyntax-only -x c "$header")"
done
if cxx=$(command -v "${cc%gcc}g++" g++ | head -n 1) && [ -n "$cxx" ]; then
    same 'header as C++' 'status 0' \
        "$(told "$cxx" -std=c++11 -Wall -Wextra -pedantic -Werror -fsyntax-only -x c++ "$header")"
else
    echo 'kit: g++ is not there: the header is not tried as C++'
fi

# ---- The examples, away from the repository. ----
cp -r "$kit/share/doc/ummervia/examples" "$room/examples"
make -s -C "$room/examples" CC="$cc" CFLAGS='-O2 -std=c11 -Wall -Wextra -pedantic -Werror' LDFLAGS=-static
sed '1,/^\.EX/d; /^\.EE/,$d; s/\\e/\\/g' "$page" >"$room/examples/manual.c"
make -s -C "$room/examples" CC="$cc" LDFLAGS=-static manual
example='10 10 00 06 00 00 04'
# Document 01: contents 1,0,1,1,0,0 give the frame 0,0,1,0; the channel has E 6, N 6, V 4, and bits 1 and 4 are dropped.
same "the manual's example" $'0\n0\n1\n0\nstatus 0' "$(told "${run[@]}" "$room/examples/manual")"
sizes="a frame of 4 bits in 1 slot(s)
contents: 6 bytes, one a bit; received: 6 floats
channel 1: 6 encoded bits in 1 frame(s), 6 of them in each frame, sent as 4
    punctured bits lie 3 apart
status 0"
same 'sizes' "$sizes" "$(told "${run[@]}" "$room/examples/sizes" "$room/examples/example.sheet")"
rm "$room/examples/sizes"
make -s -C "$room/examples" CC="$cc" sizes
same 'sizes, linked as the compiler does by itself' "$sizes" \
    "$(told "${run[@]}" "$room/examples/sizes" "$room/examples/example.sheet")"

# Document 01: N=6, D=8: sent are 1,1,2,3,4,4,5,6.
sheet '10 10 00 06 00 00 08'
same 'sizes, repeated' "a frame of 8 bits in 1 slot(s)
contents: 6 bytes, one a bit; received: 6 floats
channel 1: 6 encoded bits in 1 frame(s), 6 of them in each frame, sent as 8
    each bit is sent 1 or 2 times
status 0" "$(told "${run[@]}" "$room/examples/sizes" "$room/sheet")"

# The same 8 places, at a level each: bits 1 and 4 are added up, and clipped beyond 1,024.
levels() { same "levels $1" "$2" "$(told "${run[@]}" "$room/examples/levels" "$1" "$room/sheet")"; }
levels 500 $'channel 1: 6 bits, 0 punctured, magnitudes 500 to 1000, 0 at the bound\nstatus 0'
levels -600 $'channel 1: 6 bits, 0 punctured, magnitudes 600 to 1024, 2 at the bound\nstatus 0'
levels 1024.5 $'channel 1: 6 bits, 0 punctured, magnitudes 1024 to 1024, 6 at the bound\nstatus 0'
levels 65537 $'refused, 12: a soft value is from -65,536 to 65,536\nstatus 1'

# A sheet of 16 channels: its weights RM x N are 4 x (190 x 152 + 180 x 167 + 230 x 68), 150 x 500, 160 x 528, 140 x 525, 0, in sum
# 531,300; D is 2,928. Channel 13 has Z from 2,928 x 298,320 / 531,300 = 1,644 to 2,928 x 373,320 / 531,300 = 2,057, and the last is empty.
told "${run[@]}" "$room/examples/sizes" "$room/examples/gateway.sheet" >"$room/gateway"
same 'sizes, sixteen channels' 'a frame of 2928 bits in 4 slot(s)
16
channel 13: 500 encoded bits in 1 frame(s), 500 of them in each frame, sent as 413
channel 16: 0 encoded bits in 8 frame(s), 0 of them in each frame, sent as 0
status 0' "$(head -n 1 "$room/gateway"; grep -c '^channel' "$room/gateway"; grep -E '^(channel 1[36]|status)' "$room/gateway")"

# Document 01: the places of its example hold bits 2, 6, 3, 5.
place=0
for bit in 2 6 3 5; do
    place=$((place + 1))
    whereis "$example" 0 1 1 $place 0 "bit $bit of channel 1, copy 0"
done
# Document 01: N=6, D=8: sent are 1,1,2,3,4,4,5,6; second interleaving of 8: 1,6,4,2,7,5,3,8. So the places hold, bit:copy:
place=0
for name in 1:0 4:1 3:0 1:1 5:0 4:0 2:0 6:0; do
    place=$((place + 1))
    whereis '10 10 00 06 00 00 08' 0 1 1 $place 0 "bit ${name%:*} of channel 1, copy ${name#*:}"
done
# Document 01: E=5, F=4: frames 0 to 3 hold bits 1,5 / 3,7 / 2,6 / 4,8, of which those above 5 are fillers.
frame=0
for bits in 1,5 3,7 2,6 4,8; do
    second=', a filler'
    ((${bits#*,} > 5)) || second=''
    whereis '10 10 80 05 00 00 02' $frame 1 1 1 0 "bit ${bits%,*} of channel 1, copy 0"
    whereis '10 10 80 05 00 00 02' $frame 1 1 2 0 "bit ${bits#*,} of channel 1, copy 0$second"
    frame=$((frame + 1))
done
# Uplink, spreading factors 8 and 2, capacities 7 and 5: PhCH 1 takes one bit at its turn, PhCH 2 four, of its second turn only one.
# Second interleaving of 12: 1, 11, 6, 4, 9, 2, 12, 7, 5, 10, 3, 8. PhCH 1 has turns 1, 6, 8 to 12, PhCH 2 from its last place down 2 to 5
# and 7.
place=0
for bit in 1 2 7 5 10 3 8; do
    place=$((place + 1))
    whereis '10 18 00 0c 00 16 00 e4 01 40' 0 1 1 $place 0 "bit $bit of channel 1, copy 0"
done
place=0
for bit in 12 9 4 6 11; do
    place=$((place + 1))
    whereis '10 18 00 0c 00 16 00 e4 01 40' 0 1 2 $place 0 "bit $bit of channel 1, copy 0"
done
# 1.28 Mcps: PhCHs of 2 and 2 places in slot 1 and of 2 in slot 2, in each sub-frame. Mode 0: the 12 bits, interleaved as above, are halved,
# and each half is cut into 4 and 2. Mode 1: 8 bits of slot 1, interleaved as 1, 6, 4, 2, 7, 5, 3, 8, are halved, and 4 of slot 2, as 9, 12, 10, 11.
# PhCH 2 is filled from its last place down.
halves() {
    for place in 1/1/1 1/1/2 1/2/1 1/2/2 2/1/1 2/1/2; do
        whereis_in "$1" 0 "$2" ${place//// } 0 "bit $3 of channel 1, copy 0"
        set -- "$1" "$2" "${@:4}"
    done
}
halves '10 24 00 0c 00 10 02 00 20 00 20' 1 1 6 4 11 9 2
halves '10 24 00 0c 00 10 02 00 20 00 20' 2 12 5 10 7 3 8
halves '18 24 00 0c 00 10 02 00 20 00 20' 1 1 4 2 6 9 12
halves '18 24 00 0c 00 10 02 00 20 00 20' 2 7 3 8 5 10 11
whereis '10 24 00 0c 00 10 02 00 20 00 20' 0 1 1 2 0 'bit 6 of channel 1, copy 0'
# The table of numbers. 6: 8 channels of 16,383 bits; 7: 15 slots of 4,095 bits, 61,425 in sum, and 30,001 bits in each of two sub-frames.
whereis '10' 0 1 1 1 1 'refused, 1: the sheet is shorter than 2 bytes'
whereis '20 10 00 06 00 00 04' 0 1 1 1 1 "refused, 2: the sheet's version is not 1"
whereis '10 00 00 06 00' 0 1 1 1 1 'refused, 3: the sheet has no slot'
form="refused, 4: the sheet's length is not what its fields need, or a spare or padding bit is set"
whereis "$example 00" 0 1 1 1 1 "$form"
whereis '10 11 00 06 00 00 04' 0 1 1 1 1 "$form"
whereis '10 15 00 06 00 00 04' 0 1 1 1 1 "$form"
whereis '10 10 00 06 00 00 00' 0 1 1 1 1 'refused, 5: a capacity is 0'
codes='refused, 13: an uplink slot has more than two codes, or a logarithm over 4'
whereis '10 18 00 06 00 0a 00 80' 0 1 1 1 1 "$codes"
# The longest that has a sheet's form, 508 bytes: 16 channels, 15 uplink slots of 16 codes with logarithms 7 and capacities 4,095.
longest="17 fa $(printf '3f ff 00 %.0s' {1..16})$(printf 'f%.0s' {1..915})"
whereis "${longest}0" 0 1 1 1 1 "$codes"
same 'sizes, the longest that has a form' $'the sheet is refused: 13\nstatus 1' \
    "$(told "${run[@]}" "$room/examples/sizes" "$room/sheet")"
whereis "${longest}000" 0 1 1 1 1 "$form"
whereis "${longest%fff}0000" 0 1 1 1 1 'refused, 5: a capacity is 0'
whereis "10 84 00 06 00 $(printf '00 04 %.0s' {1..8})" 0 1 1 1 1 'refused, 14: a sheet of 1.28 Mcps has more than 7 slots'
whereis "17 10 $(printf '3f ff 00 %.0s' {1..8})00 04" 0 1 1 1 1 \
    "refused, 6: the channels' equalised sizes sum up to more than 60,000 bits"
for slots in "10 f0 00 06 00 $(printf '0f ff %.0s' {1..15})" "10 74 00 06 00 $(printf '0f ff %.0s' {1..6})1f ff 53 80"; do
    whereis "$slots" 0 1 1 1 1 'refused, 7: the capacities of all sub-frames sum up to more than 60,000 bits'
done
whereis '10 10 00 00 00 00 04' 0 1 1 1 1 'refused, 8: every channel is empty'
whereis "$example" 256 1 1 1 1 'refused, 9: the frame number is over 255'
absence='refused, 10: there is no such sub-frame, slot, physical channel or place'
for absent in '0 1 1' '2 1 1' '1 0 1' '1 2 1' '1 1 0' '1 1 5'; do
    read -r slot phch place <<<"$absent"
    whereis "$example" 0 "$slot" "$phch" "$place" 1 "$absence"
done
whereis_in "$example" 0 1 1 1 2 0 'bit 6 of channel 1, copy 0'
for subframe in 0 2 4294967295; do whereis_in "$example" 0 $subframe 1 1 2 1 "$absence"; done
for subframe in 0 3; do whereis_in '10 24 00 0c 00 10 02 00 20 00 20' 0 $subframe 1 1 2 1 "$absence"; done
use='use: whereis SHEETFILE FRAME [SUBFRAME] SLOT PHCH PLACE'
whereis "$example" 0 1 1 -1 2 "$use"
whereis "$example" 4294967296 1 1 1 2 "$use"
whereis_in "$example" 0 -1 1 1 1 2 "$use"

# E = 120, 160, 160 and F = 1, 2, 4 give N = 120, 80, 40; with RM = 100, 150, 200 the weights RM x N are 12,000, 12,000 and 8,000.
# D = 48 + 96 + 96 = 240, so that Z = 240 x (12, 24, 32) / 32 = 90, 180, 240 and V = 90, 90, 60. In four frames channel 1 sends
# four TTIs, channel 2 two and channel 3 one: 480, 320 and 160 bits. Channel 1 loses 120 - 90 = 30 bits in each frame; what is heard
# are 4 x V copies. The uplink sheet has 16 + 3 x 24 + (4 + 2 x 15) + (4 + 15) = 141 bits, 18 bytes.
same 'roundtrip' "4 frames of 240 bits, sheet of 18 bytes
channel 1, 120 bits a frame sent as 90: 480 sent, 360 heard in 360 copies, 120 silent, 120 punctured, 0 wrong
channel 2, 80 bits a frame sent as 90: 320 sent, 320 heard in 360 copies, 0 silent, 0 punctured, 0 wrong
channel 3, 40 bits a frame sent as 60: 160 sent, 160 heard in 240 copies, 0 silent, 0 punctured, 0 wrong
all heard bits are right, and only punctured ones silent
status 0" "$(told "${run[@]}" "$room/examples/roundtrip")"

# The sheet of 1.28 Mcps: E = 804, 360 and F = 2, 4 give N = 402, 90; with RM = 180, 256 the weights are 72,360 and 23,040, in sum 95,400.
# D = 2 x (88 + 88 + 44) = 440, so that Z = 440 x 72,360 / 95,400 = 333 and 440; V = 333, 107. It has 16 + 2 x 24 + (4 + 24) + (4 + 12) = 108 bits.
same 'roundtrip, 1.28 Mcps' "4 frames of 440 bits, sheet of 14 bytes
channel 1, 402 bits a frame sent as 333: 1608 sent, 1332 heard in 1332 copies, 276 silent, 276 punctured, 0 wrong
channel 2, 90 bits a frame sent as 107: 360 sent, 360 heard in 428 copies, 0 silent, 0 punctured, 0 wrong
all heard bits are right, and only punctured ones silent
status 0" "$(told "${run[@]}" "$room/examples/roundtrip" "$room/examples/lcr.sheet")"

# ---- Uninstalled: nothing of the kit is left, and what others installed is. ----
touch "$kit/lib/other.a" "$kit/share/man/man3/other.3"
make -s uninstall DESTDIR= PREFIX="$kit"
make -s uninstall DESTDIR="$room/stage" PREFIX=/opt/ummervia
same 'files after uninstalling' $'lib/other.a\nshare/man/man3/other.3' "$(files_in "$kit")"
same 'files after uninstalling, DESTDIR' '' "$(files_in "$room/stage")"
same 'folders after uninstalling' '' "$(find "$room/kit" "$room/stage" -name 'ummervia' -path '*/doc/*')"

echo "kit: $count checks, $bad wrong"
((bad == 0))
