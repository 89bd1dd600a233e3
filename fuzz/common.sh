# Paths and compiling, for the scripts of this folder. They are run from anywhere; everything made goes to build/fuzz.
set -eu
cd "$(dirname "$0")/.."
MADE=build/fuzz
ARCHIVE=build/podrulka/lib/libpodrulka.a
WARN="-std=c11 -Wall -Wextra -Werror -pedantic -O2 -g -Ibuild/podrulka/include -Ifuzz"
# what target.c is made of; trace-cmp would cost a third of the speed, and the format has no magic values
PARTS="fuzz/target.c fuzz/input.c fuzz/plain.c fuzz/fence.c fuzz/tally.c fuzz/blocks.c fuzz/mutate.c"
GUIDED="-fsanitize=fuzzer -fno-sanitize-coverage=trace-cmp"
mkdir -p $MADE
[ -e $ARCHIVE ] || make
# Debian packages: clang and libclang-rt-14-dev, valgrind
need() { command -v "$1" > /dev/null || { echo "needed: $1"; exit 2; }; }
