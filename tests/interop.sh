#!/bin/sh
# Tries the codecs beside programs of others: Avro's values beside Debian's python3-avro, in both directions, the
# records of data blocks and those of the logs of a whole run, which it decodes, and Parquet's footers and page
# headers, those of a whole base file too, beside its python3-thrift, which reads what is written.
#
# Run: tests/interop.sh
# It installs the packages where apt-get can, and fails where they aren't there: a codec that was not tried has not
# passed.
set -eu
export PYTHONDONTWRITEBYTECODE=1 # nothing is left beside the scripts
top=$(cd "$(dirname "$0")/.." && pwd)
python=/usr/bin/python3

if ! $python -c 'import avro.io, thrift.Thrift' 2>/dev/null; then
    apt-get update >/dev/null && apt-get install -y python3-avro python3-thrift >/dev/null || true
fi
if ! $python -c 'import avro.io, thrift.Thrift'; then
    echo "failed: python3-avro or python3-thrift isn't there"
    exit 1
fi

built=$(mktemp)
trap 'rm -f "$built"' EXIT

# Proves and builds a program on its own input, and fails where that fails.
build() {
    crate=$top/crates/$1
    shift
    if ! (cd "$crate" && rt run -- "$@" <stdin) >"$built" 2>&1; then
        cat "$built"
        exit 1
    fi
}

build codec_tool avro decode
build thrift_cases
build base_cases
"$top/hudi" >"$built" || [ $? -eq 2 ] # builds it
$python "$top/tests/interop_avro.py" "$top/crates/codec_tool/out/codec_tool"
$python "$top/tests/interop_contents.py" "$top/crates/codec_tool/out/codec_tool"
$python "$top/tests/interop_logs.py" "$top/crates/hudi_cli/out/hudi_cli"
$python "$top/tests/interop_thrift.py" "$top/crates/thrift_cases/out/thrift_cases" \
    "$top/crates/base_cases/out/base_cases"
