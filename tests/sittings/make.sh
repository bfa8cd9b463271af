#!/bin/sh
# Makes the sittings and the model's answers anew, and counts what they have.
set -eu
here=$(cd "$(dirname "$0")" && pwd)
replay=$(cd "$here/../../crates" && pwd)/replay
mkdir -p "$replay"
python3.11 "$here/make.py" "$replay/stdin" > /dev/null
# the model says 1, since there are lines that cannot be read, and tells them
python3.11 "$here/model.py" < "$replay/stdin" > "$replay/stdout" 2> /dev/null || test $? = 1
python3.11 "$here/tally.py" "$replay/stdin" "$replay/stdout"
