# How the programs of the tests' Rust project (tests/Cargo.toml) are built: sourced by the comparisons.
# Whoever sources it has sourced tools/setup.sh and targets.sh, and has the repository's folder in root.

# project WORDS..: cargo, in the project.
project() (
    need cargo cargo && cd "$root/tests" && rust cargo "$@"
)

# second_program: builds the second program; prints where it is.
second_program() (
    project build --quiet --release --bin second && echo "$root/target/rust/release/second"
)

# trial_program: builds the Rust trial, over the board library for this machine; prints where it is.
trial_program() (
    library=$(cd "$root" && native_library) || return 1
    BOARD_LIBRARY=$root/$library
    BOARD_SUM=$(cksum <"$BOARD_LIBRARY/libboard.a") || return 1
    export BOARD_LIBRARY BOARD_SUM
    project build --quiet --release --bin trial && echo "$root/target/rust/release/trial"
)

# blocks_trial: builds the Rust trial of the blocks, over the blocks library for this machine; prints where it is.
blocks_trial() (
    library=$(cd "$root" && native_archive blocks 1) || return 1
    BLOCKS_LIBRARY=$root/$library
    BLOCKS_SUM=$(cksum <"$BLOCKS_LIBRARY/libblocks.a") || return 1
    export BLOCKS_LIBRARY BLOCKS_SUM
    project build --quiet --release --bin blocks-trial && echo "$root/target/rust/release/blocks-trial"
)

# scan_trial: builds the Rust trial of both engines, over their libraries for this machine; prints where it is.
scan_trial() (
    library=$(cd "$root" && native_library) && scan=$(cd "$root" && native_archive scan_board 3) || return 1
    BOARD_LIBRARY=$root/$library SCAN_LIBRARY=$root/$scan
    BOARD_SUM=$(cksum <"$BOARD_LIBRARY/libboard.a") && SCAN_SUM=$(cksum <"$SCAN_LIBRARY/libscan_board.a") || return 1
    export BOARD_LIBRARY BOARD_SUM SCAN_LIBRARY SCAN_SUM
    project build --quiet --release --bin scan-trial && echo "$root/target/rust/release/scan-trial"
)

# mend_trial WAY: builds the trial of the mender, over the board library for this machine (linked), or with the model in
# its place (model); prints where it is.
mend_trial() (
    words=
    if [ "$1" = linked ]; then
        library=$(cd "$root" && native_library) || return 1
        BOARD_LIBRARY=$root/$library words='--features linked'
        BOARD_SUM=$(cksum <"$BOARD_LIBRARY/libboard.a") || return 1
        export BOARD_LIBRARY BOARD_SUM
    fi
    project build --quiet --release --bin mend-trial $words && echo "$root/target/rust/release/mend-trial"
)
