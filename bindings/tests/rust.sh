# The checks of the Rust crate, which tools/check_bindings reads. They take its variables $top,
# $dist, $work, $warnings and $sanitized, its functions fail and left_out, and its `set -e`.
# shellcheck shell=bash disable=SC2154,SC2164

check_rust() {
    export CARGO_TARGET_DIR=$work/target CARGO_NET_OFFLINE=true
    cd "$top/bindings/rust"
    if cargo fmt --version >/dev/null 2>&1; then
        cargo fmt --check || fail "a file of the Rust crate has another layout"
    else
        left_out "the layout of the Rust crate" "no rustfmt"
    fi
    if cargo clippy --version >/dev/null 2>&1; then
        cargo clippy -q --all-targets -- -D warnings || fail "clippy warns of the Rust crate"
    else
        left_out "warnings on the Rust crate" "no clippy"
    fi
    cargo test -q >"$work/tests" || { cat "$work/tests" && fail "a test of the Rust crate failed"; }
    RUSTDOCFLAGS='-D warnings' cargo doc -q --no-deps || fail "the Rust crate's pages have a fault"
    cargo build -q --release --lib --examples || fail "the Rust examples aren't built"
    "$work/target/release/examples/first" | diff - "$top/examples/c/first.expected" ||
        fail "first.rs printed another time"
    "$work/target/release/examples/convert" | diff - "$top/examples/c/convert.expected" ||
        fail "convert.rs printed other times"
    cd "$top"
    echo "check_bindings: the tests and the examples of the Rust crate passed"
}

# NAME: prints the paths of the test executables with this name
tests_named() {
    find "$work/target/debug/deps" -name "$1-*" -executable -type f
}

# The calls with any arguments over the library, steered clocks included, under valgrind: no call
# uses memory that isn't its own, or a value that was never written.
check_rust_memory() {
    local name tests test
    for name in ntp ntp_refused bad_input; do
        tests=$(tests_named "$name")
        [ -n "$tests" ] || fail "the Rust test $name isn't built"
        for test in $tests; do
            valgrind -q --error-exitcode=1 "$test" -q >"$work/tests" 2>&1 ||
                { cat "$work/tests" && fail "a test failed under valgrind"; }
        done
    done
}

# What Cargo.toml and docs/RUST.md say of the crate: no dependency, no std, unsafe code only in sys.
check_crate() {
    local name code=$top/bindings/rust
    [ "$(grep -c '^name' "$code/Cargo.lock")" = 1 ] || fail "the Rust crate has a dependency"
    # (cargo notices changes of the variables that it sets)
    while read -r name; do
        grep -q "for name in \[.*\"$name\"" "$code/build.rs" ||
            fail "build.rs reads $name, and cargo doesn't run it again when that changes"
    done < <(grep -oP 'env::var(_os)?\("\K(?!CARGO_)\w+' "$code/build.rs")
    awk '/^(pub )?mod / && before != "#[forbid(unsafe_code)]" { print } { before = $0 }' \
        "$code/src/lib.rs" | diff - <(echo 'mod sys;') ||
        fail "another module than sys may contain unsafe code"
    rustc --edition 2021 "$code/build.rs" -o "$work/build" || fail "build.rs doesn't compile"
    ! env -u TKCORE_DIR -u TKCORE_PKG_CONFIG CARGO_CFG_TARGET_ARCH=riscv64 \
        CARGO_MANIFEST_DIR="$code" "$work/build" >"$work/chosen" 2>"$work/refused" ||
        fail "build.rs has a text for another processor"
    diff "$work/refused" - <<<"Error: \"TKCORE_DIR isn't set, and there is no text for riscv64\"" ||
        fail "build.rs says something else of another processor"
    rustc --edition 2021 -O -C panic=abort --crate-type staticlib -o "$work/no_std.a" \
        --extern "tkcore=$work/target/release/libtkcore.rlib" "$top/bindings/tests/no_std.rs" ||
        fail "the Rust crate needs std"
    # (core's tables for unwinding name the symbol that std defines)
    printf '%s\n' 'long seconds(void);' 'void rust_eh_personality(void) {}' \
        'int main(void) { return seconds() != 1700000002; }' >"$work/no_std.c"
    cc "$work/no_std.c" "$work/no_std.a" -o "$work/no_std" ||
        fail "the Rust crate needs symbols of std"
    "$work/no_std" || fail "a program without std got another time"
}

# PROGRAM LIBRARY: builds deaths.rs over the crate that cargo built
build_rust_deaths() {
    rustc --edition 2021 -O -D warnings --extern "tkcore=$2" -L "native=$work" \
        "$top/bindings/tests/deaths.rs" -o "$1" || fail "deaths.rs doesn't compile"
}

# NAME FILE EXPRESSION: the crate with a fault, which sed makes, must be found
death_control() {
    rm -rf "$work/faulty"
    cp -r "$top/bindings/rust" "$work/faulty"
    sed -i "$3" "$work/faulty/src/$2"
    ! cmp -s "$work/faulty/src/$2" "$top/bindings/rust/src/$2" ||
        fail "the Rust crate has no place for: $1"
    (cd "$work/faulty" && CARGO_TARGET_DIR=$work/faulty_target cargo build -q --release --lib) ||
        fail "the Rust crate isn't built with: $1"
    build_rust_deaths "$work/faulty_deaths" "$work/faulty_target/release/libtkcore.rlib"
    ! LD_LIBRARY_PATH=$work timeout 450 "$work/faulty_deaths" >"$work/found" 2>&1 ||
        fail "not found in the Rust crate: $1"
}

# Each store of the crate is tkcore_page.h's, no read misses a move, and writers die; and crates in
# which this isn't so are found.
check_rust_deaths() {
    build_rust_deaths "$work/deaths" "$work/target/release/libtkcore.rlib"
    LD_LIBRARY_PATH=$work timeout 450 "$work/deaths" ||
        fail "a page or a latch of Rust isn't tkcore_page.h's"
    death_control "the latch's other copy stays as it was" latch.rs \
        '/pub fn recover/,/^    }/s/self.shared.store(whole ^ 1, &words);//'
    death_control "the page is one before it is whole" shared.rs \
        '/fn init/,/^    }/s/layout.store(0, Relaxed)/layout.store(layout, Relaxed)/'
    death_control "clocks are taken although the page moved" page.rs \
        '/pub fn clock(/,/^    }/s/is_moved(sequence)/is_moved(self.shared.sequence())/'
    death_control "a begin after a death makes the sequence even" page.rs \
        '/pub fn begin/,/^    }/s/sequence | 1/sequence + 1/'
    death_control "a move by one publication isn't noticed" shared.rs \
        '/fn is_moved/,/^    }/s/!= sequence/> sequence + 2/'
}

# The tests over the model instead of the library, compiled with the sanitizers: the crate passes C
# only pointers to memory that it has, with the right lengths, and the model gives the same answers.
check_rust_sanitized() {
    local model=$work/model tests=(--lib) source name host runner
    mkdir -p "$model/lib"
    cp -r "$dist/include" "$model"
    for source in bindings/tests/modelled.c tests/c/model.c; do
        gcc -std=c11 -O1 -g -fPIC "${warnings[@]}" "${sanitized[@]}" -I"$dist/include" \
            -I"$top/tests/c" -c "$top/$source" -o "$model/$(basename "$source" .c).o" ||
            fail "$source doesn't compile"
    done
    ar rcs "$model/lib/libtkcore.a" "$model"/*.o
    # (the model has no discipline)
    for source in "$top"/bindings/rust/tests/*.rs; do
        name=$(basename "$source" .rs)
        [[ $name == ntp* ]] || tests+=(--test "$name")
    done
    host=$(rustc -vV | sed -n 's/^host: //p')
    runner=CARGO_TARGET_$(tr '[:lower:]-' '[:upper:]_' <<<"$host")_RUNNER
    (cd "$top/bindings/rust" && env ASAN_OPTIONS=detect_leaks=0 TKCORE_DIR="$model" \
        RUSTFLAGS='-Clinker=gcc -Clink-arg=-lasan -Clink-arg=-lubsan' \
        "$runner=env LD_PRELOAD=$(gcc -print-file-name=libasan.so)" \
        CARGO_TARGET_DIR="$work/sanitized" cargo test -q --target "$host" "${tests[@]}" \
        >"$work/tests" 2>&1) || { cat "$work/tests" && fail "a test failed under the sanitizers"; }
}

# FUNCTION: how many calls its code makes
calls_in() {
    objdump -d --no-show-raw-insn "$work/target/release/examples/reads" |
        awk -v name="$1" '/^[0-9a-f]+ </ { is_in = index($0, name) } is_in && /\tcall / { n++ }
            END { print n + 0 }'
}

# A read from Rust makes no call but the library's: one for a snapshot, and three for a page.
check_calls() {
    [ "$(calls_in get_once)" = 1 ] || fail "Snapshot::get makes $(calls_in get_once) calls"
    [ "$(calls_in page_once)" = 3 ] || fail "Page::now makes $(calls_in page_once) calls"
}

# PROGRAM KIND: how many instructions 1000 reads take
instructions() {
    local reads
    for reads in 1000 2000; do
        valgrind --tool=callgrind --callgrind-out-file=/dev/null "$1" "$2" "$reads" 2>&1
    done | awk '/Collected/ { print $NF - last; last = $NF }' | tail -n 1
}

# A read from Rust executes at most 1.05 times the instructions of a read from C.
check_reads() {
    local kind in_c in_rust
    cc -std=gnu11 -O2 "${warnings[@]}" -I"$dist/include" "$top/bindings/tests/reads.c" \
        "$dist/lib/libtkcore.a" -o "$work/reads" || fail "reads.c doesn't compile"
    for kind in get page; do
        in_c=$(instructions "$work/reads" "$kind")
        in_rust=$(instructions "$work/target/release/examples/reads" "$kind")
        echo "check_bindings: 1000 reads of a $kind: $in_rust instructions in Rust, $in_c in C"
        [ $((100 * in_rust)) -le $((105 * in_c)) ] ||
            fail "a read from Rust takes more instructions than one from C"
    done
}
