#!/usr/bin/env bash
# The pictures of the lessons: `examples/pictures.sh` makes them anew in examples/pictures, and `examples/pictures.sh check` says which
# of them the program would make otherwise. A lesson whose lanes run at the same time has another report in each run: its picture is
# that of the report of one run, which stands beside it.
set -u
cd "$(dirname "$0")/.." || exit 1
check=${1:-}
new=$(mktemp) || exit 1
trap 'rm -f "$new"' EXIT
wrong=0
# what is shown of a lesson: its script, with the report that stands beside its picture if one does
shown() {
    cat "examples/$1.nrt"
    [ ! -f "examples/pictures/$1.report" ] || { echo report; cat "examples/pictures/$1.report"; }
}
for script in examples/*.nrt; do
    name=$(basename "$script" .nrt)
    [ "$name" = foreign ] && continue
    for form in txt svg; do
        picture=examples/pictures/$name.$form
        words=picture
        [ "$form" = svg ] && words='picture svg'
        # shellcheck disable=SC2086
        shown "$name" | ./nrt $words > "$new" || { echo "$picture: no picture"; wrong=1; continue; }
        if [ "$check" = check ]; then
            cmp -s "$new" "$picture" || { echo "$picture: differs"; wrong=1; }
        else
            cp "$new" "$picture"
        fi
    done
done
exit $wrong
