#!/bin/sh
# Makes src/expected.rt with the Netpbm tools, from the hand-made pictures below.
# The pictures stand in src/pictures.rt too, as samples.
set -e
cd "$(dirname "$0")"
export LC_ALL=C
t=$(mktemp -d)
trap 'rm -r "$t"' EXIT

# Grey, 5 by 3, 8 bits: 0 is black.
printf 'P2\n5 3\n255\n0 1 2 3 4\n10 32 48 80 255\n254 128 127 64 9\n' > "$t/grey.pgm"
# Bilevel, 10 by 3: as in P1, 1 is black.
printf 'P1\n10 3\n1 0 1 1 0 0 0 1 0 1\n0 1 1 0 1 0 0 0 0 0\n1 1 1 1 0 1 0 0 1 1\n' > "$t/lines.pbm"
# RGB, 3 by 2.
printf 'P3\n3 2\n255\n255 0 0 0 255 0 0 0 255\n1 2 3 10 20 30 250 251 252\n' > "$t/rgb.ppm"
# Four bits, 4 by 3: 0 is black here.
printf 'P2\n4 3\n15\n3 0 15 8\n1 2 4 7\n14 13 11 9\n' > "$t/four.pgm"

# The samples of `lines` where 0 is black, and of `four` where 0 is white.
pnminvert "$t/lines.pbm" > "$t/paper.pbm"
pnminvert "$t/four.pgm" > "$t/pale.pgm"
# A sheet 100 by 2 of white, 4 bits.
pgmmake -maxval=15 1 100 2 > "$t/white.pgm"

# The pamflip of each turn.
flip() {
    case $1 in
        1) pamflip -null ;;
        2) pamflip -leftright ;;
        3) pamflip -rotate180 ;;
        4) pamflip -topbottom ;;
        5) pamflip -transpose ;;
        6) pamflip -cw ;;
        7) pamflip -xform=transpose,leftright,topbottom ;;
        8) pamflip -ccw ;;
    esac
}

# A byte string of what is read.
text() {
    printf 'b"'
    od -An -v -tx1 | tr -d '\n' | sed 's/ /\\x/g'
    printf '"'
}

# A function that gives the file for each turn: NAME, PICTURE and how that was made.
turns() {
    printf '\n// pamflip of %s: -null, -leftright, -rotate180, -topbottom, -transpose, -cw, -xform=transpose,leftright,topbottom, -ccw.\n' "$3"
    printf 'pub fn %s(turn: u8) -> &%sstatic [u8] {\n    match turn {\n' "$1" "'"
    for k in 2 3 4 5 6 7 8; do
        printf '        %s => ' $k
        flip $k < "$t/$2" | pamtopnm | text
        printf ',\n'
    done
    printf '        _ => '
    flip 1 < "$t/$2" | pamtopnm | text
    printf ',\n    }\n}\n'
}

# A function that gives one file: NAME, and the command that made it.
one() {
    printf '\n// %s\n' "$2"
    printf 'pub fn %s() -> &%sstatic [u8] {\n    ' "$1" "'"
    (cd "$t" && eval "$2") | pamtopnm | text
    printf '\n}\n'
}

{
    printf '// Netpbm files made by expected.sh with the Netpbm tools, and not by this code.\n'
    turns grey grey.pgm 'grey.pgm'
    turns lines lines.pbm 'lines.pbm'
    turns rgb rgb.ppm 'rgb.ppm'
    turns pale pale.pgm 'pnminvert four.pgm'
    one paper 'pnminvert lines.pbm'
    one white 'pgmmake -maxval=15 1 100 2'
    one grey_cut 'pamcut -left 1 -top 1 -width 3 -height 2 grey.pgm'
    one lines_cut 'pamcut -left 1 -top 0 -width 9 -height 3 lines.pbm'
    one rgb_cut 'pamcut -left 2 -top 1 -width 1 -height 1 rgb.ppm'
    one cut_then_turned 'pamcut -left 1 -top 1 -width 3 -height 2 grey.pgm | pamflip -cw'
    one turned_then_cut 'pamflip -cw grey.pgm | pamcut -left 1 -top 1 -width 2 -height 3'
} > src/expected.rt
