# shellcheck shell=sh disable=SC2086,SC2154,SC2013 # read by run.sh, whose names it uses
# The way CARRY=1 of tests/fuzz/run.sh: the target writes its calls to a fifo, the player makes them on the archive.
played_archive=target/staticlib/libollskuvan.a played_program=target/obj/ringdump.o
cross=cc
cross_objcopy=objcopy
emulator=
if [ "$(uname -m)" != x86_64 ]; then
    cross=x86_64-linux-gnu-gcc
    cross_objcopy=x86_64-linux-gnu-objcopy
    emulator=$(command -v qemu-x86_64 || command -v qemu-x86_64-static || echo qemu-x86_64)
fi

# An export that carried.h does not have is not linked: no call is left out.
build_carry() {
    for tool in $cross $cross_objcopy $emulator; do
        command -v "$tool" >/dev/null || skip "$tool is missing (tools/x86.sh line tells what installs it)"
    done
    [ -f "$played_archive" ] || stop "$played_archive is missing: run 'make lib' first"
    [ -f "$played_program" ] || stop "$played_program is missing: run 'make run' first"
    wrapped='-Wl,--wrap=LLVMFuzzerTestOneInput,--wrap=ringdump_main,--wrap=ringdump_read,--wrap=ringdump_write'
    wrapped="$wrapped $(nm "$archive" 2>/dev/null | sed -n 's/.* T \(ollskuvan_.*\)/-Wl,--wrap=\1/p' | tr '\n' ' ')"
    carry=$out/carry.o
    newer "$carry" tests/fuzz include ||
        clang -std=gnu11 -Wall -Wextra -Wshadow -Werror -g -O2 -Iinclude -c -o "$carry" tests/fuzz/carry.c
    newer "$out/played" tests/fuzz include narrow "$played_archive" "$played_program" || {
        $cross_objcopy --redefine-sym main=ringdump_main --redefine-sym read=ringdump_read \
            --redefine-sym write=ringdump_write "$played_program" "$out/played-ringdump.o"
        $cross -std=gnu11 -Wall -Wextra -Wshadow -Werror -g -O2 -static -Iinclude -o "$out/played" tests/fuzz/played.c narrow/ringdump.c \
            "$out/played-ringdump.o" "$played_archive"
    }
}

# Without wide vectors, which the emulator is slow at.
play() { env QEMU_CPU=qemu64,+popcnt $emulator "$out/played"; }

# As many as PLAYERS says: the target makes executions several times as fast as one player.
start_players() {
    export CARRY_TO="$out/stream" PLAYERS="${PLAYERS:-2}"
    player=0 processes=
    rm -f "$out"/played-?.log
    while [ $player -lt "$PLAYERS" ]; do
        rm -f "$CARRY_TO.$player"
        mkfifo "$CARRY_TO.$player"
        PLAYED_KEEPS=$out/found/carried-$player play <"$CARRY_TO.$player" >"$out/played-$player.log" 2>&1 &
        processes="$processes $!"
        player=$((player + 1))
    done
}

# Waits for all. Agreed: the sums of what they made; else all that they said.
players_agree() {
    status=0
    for process in $processes; do
        wait "$process" || status=1
    done
    if [ $status -ne 0 ]; then
        head -c 60000 "$out"/played-?.log
        return $status
    fi
    cat "$out"/played-?.log | awk '/ executions, / { executions += $2; calls += $4; next }
        !($2 in made) { order[functions++] = $2 } { made[$2] += $3 }
        END { for (i = 0; i < functions; i++) printf "carried: %s %d\n", order[i], made[order[i]]
              printf "carried: %d executions, %d calls, no difference\n", executions, calls }'
}

# One short stream, played once as it is, and once with each planted difference.
carry_teeth() {
    CARRY_TO=$out/teeth PLAYERS=1 "$out/target" $signals -runs=3000 -seed="$seed" -max_len="$max_len" -detect_leaks=0 \
        -dict=tests/fuzz/ollskuvan.dict "$out/seeds" 2>"$out/log" || stop "the target failed, see $out/log"
    play <"$out/teeth.0" >"$out/played.log" || stop "the stream does not play, see $out/played.log"
    found=0 number=0
    for name in $(sed -n 's/^carried: \([a-z_]*\) [0-9]*$/\1/p' "$out/played.log"); do
        for where in $(planted_in "$name"); do
            ! PLANT=$((100 * where + number)) play <"$out/teeth.0" >"$out/planted.log" 2>&1 ||
                stop "the difference planted in $name at $where was not found"
            grep -q "^DIFFERENCE: $name," "$out/planted.log" || stop "$name at $where ended otherwise, see $out/planted.log"
            found=$((found + 1))
        done
        number=$((number + 1))
    done
    rm -f "$out/teeth.0"
    echo "carry-teeth: $found differences planted in $number functions, all found"
}

# Where a function gets them (see PLANT in played.c): its answer; a slice lent for reading, and what is behind it; the last
# byte of each slice that it may write, and the guard byte beside it.
planted_in() {
    case $1 in
        ringdump | misc_meaning | publish) echo 0 ;;
        find_event | check | check_events) echo 0 20 21 ;;
        copy_name | read | read_events | write | read_store | write_store) echo 0 20 21 1 11 ;;
        *) echo 0 20 21 1 11 2 12 ;;
    esac
}
