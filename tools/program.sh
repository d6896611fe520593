# Sets `program` to the program that was made of the code as it is: the proved one, else the one that is built without proofs, else nothing.
# `root` is the top of the repository. Each program has a stamp beside it, whose first line is the sum of the code that it was made of.
program=
sources=
proved=$root/crates/papyrus/out/papyrus
unproved=$root/crates/papyrus/out/unproved/papyrus

# Whether nothing that the code is in was touched since the stamp, which takes a fifth of the time of its sum: crates.txt, the folders of crates, and
# all in their src. A file's status is younger than the stamp whatever changed it, also where its own time was set back.
untouched() {
    [ -s "$1" ] && [ -z "$({ cd "$root" && exec find crates.txt crates crates/* crates/*/src \( -path 'crates/*/src*' -o -prune \) -newercm "$1" -print -quit; } 2>&1)" ]
}

# Whether the program is there and its stamp has the sum of the code.
is_of_sources() {
    [ -x "$1" ] && [ -s "$1.sources" ] && IFS= read -r stamped <"$1.sources" && [ "$stamped" = "$sources" ]
}

since=
began=
if untouched "$proved.sources"; then
    IFS= read -r sources <"$proved.sources"
elif untouched "$unproved.sources"; then
    since=$unproved.sources
    IFS= read -r sources <"$since"
else
    # The clocks of files go in steps, so the stamp is a second older than what may have been touched while the sum was made.
    began=$root/crates/papyrus/out/began.$$
    { (: >"$began") && touch -r "$began" -d '-1 second' "$began"; } 2>/dev/null || began=
    since=$began
    sources=$("$root/tools/sources")
fi
for made in "$proved" "$unproved"; do
    if [ -z "$program" ] && is_of_sources "$made"; then
        program=$made
    fi
done
if [ -n "$since" ] && [ -n "$program" ] && [ "$since" != "$program.sources" ]; then
    touch -r "$since" "$program.sources" 2>/dev/null
fi
[ -z "$began" ] || rm -f "$began"
