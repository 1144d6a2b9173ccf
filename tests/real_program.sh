#!/usr/bin/env bash
# What the real program answers where only a real file system and a real device can show it. Run it from anywhere; it ends with
# 'N passed, M failed'. The gate does not need it.
set -u

here=$(cd "$(dirname "${BASH_SOURCE[0]}")/.." && pwd) || exit 1
folder=$(mktemp -d) || exit 1
trap 'rm -rf "$folder"' EXIT
passed=0
failed=0

# expect NAME STATUS LINE [WORDS..]: the status, and the line on standard error
expect() {
    local name=$1 status=$2 line=$3 said got
    shift 3
    said=$("$here/cecil" -C "$folder" "$@" 2>&1 >"${output:-/dev/null}")
    got=$?
    if [ "$got" = "$status" ] && [ "$said" = "$line" ]; then
        passed=$((passed + 1))
    else
        failed=$((failed + 1))
        echo "$name: status $got, '$said'; wanted $status, '$line'"
    fi
}

"$here/cecil" >/dev/null 2>&1 # builds it, where it is missing
cp "$here/crates/cecil/data/small.dll" "$folder/small.dll"
cp "$here/examples/edit.json" "$folder/edit.json"
printf '{"modules":["none.dll"],"actors":[],"write":[]}' >"$folder/none.json"
mkdir "$folder/folder"
truncate -s $((2 ** 26 + 1)) "$folder/long.dll"
truncate -s $((2 ** 26)) "$folder/whole.dll"
cp "$folder/small.dll" "$folder/barred.dll"
chmod 000 "$folder/barred.dll"

usage='cecil: usage: dump FILE | show FILE TOKEN | run JOB | gen N'
expect 'a dump' 0 '' dump small.dll
expect 'all of a token' 0 '' show small.dll 02000001
expect 'a token of seven digits' 2 "$usage" show small.dll 0200001
expect 'no words' 2 "$usage"
expect 'a word that is not UTF-8' 2 "$usage" dump $'\xff'
expect 'a name with a slash' 2 "$usage" dump folder/small.dll
expect 'a file that is not there' 4 'cecil: file none.dll: missing' dump none.dll
expect 'a file past the limit' 4 'cecil: file long.dll: too long' dump long.dll
expect 'a file of the limit that is no image' 4 'cecil: file whole.dll: refused 2 NoDos' dump whole.dll
expect 'a folder in place of a file' 6 'cecil: read fault' dump folder
output=/dev/full expect 'a full device' 7 'cecil: write fault' dump small.dll
expect 'a job' 0 '' run edit.json
expect 'a job that is not there' 4 'cecil: file no.json: missing' run no.json
expect 'a job that is an image' 3 'cecil: job: not JSON' run small.dll
expect 'a job past the limit' 4 'cecil: file long.dll: too long' run long.dll
expect 'a job of an image that is not there' 4 'cecil: file none.dll: missing' run none.json
expect 'a job in a folder' 6 'cecil: read fault' run folder
output=/dev/full expect 'a job on a full device' 7 'cecil: write fault' run edit.json
if [ "$(id -u)" = 0 ]; then
    echo 'a file that may not be read: left out, since root may read it'
else
    expect 'a file that may not be read' 6 'cecil: read fault' dump barred.dll
fi

echo "$passed passed, $failed failed"
[ "$failed" = 0 ]
